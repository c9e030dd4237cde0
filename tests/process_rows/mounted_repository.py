"""Rows: programs work in a mounted commit of a repository, and find there what a plain checkout of it has."""
import os
import subprocess
import time

from process_rows.checks import row, same
from process_rows.mounts import ASKS_AGAIN, Mount, all_end, drop_caches
from process_rows.repositories import LINKS, git, make_repository
from process_rows.rooms import run_to_end

TAKEOVERS, TAKEOVERS_OF_UNPROVED = 20, 3
# How many seconds pass between two takeovers.
BETWEEN = 0.5
# What programs print that look at a whole tree. Of a directory a plain file system has a size and a count of links that
# tell how it keeps names; these are left out, and so are times, blocks, and the width of columns.
LOOKS = {
    "ls": "ls -lAR --time-style=+ . | sed '/^total /d' | tr -s ' ' | awk '/^d/ { $2 = $5 = 0 } { print }'",
    "find": "find . -type f -print0 | LC_ALL=C sort -z",
    "kinds": "find . -mindepth 1 ! -type d -printf '%y %m %s %l %p\\0' -o -type d -printf '%y %m %p\\0' | LC_ALL=C sort -z",
    "tar": "tar cf - --sort=name --mtime=@0 --owner=0 --group=0 --numeric-owner .",
    "grep": "grep -rlFx needle . | LC_ALL=C sort",
    "sums": "find . -type f -print0 | LC_ALL=C sort -z | xargs -0 sha256sum",
    "follows": "for it in to_main to_parts/twice.c src/up/empty src/parts/over; do wc -c <$it; done",
}
# A program does this in the mount, and compares with what stands in the file of its word.
COMPARES = '{ %s ; } | cmp - "$1" >&2'
DIFF = 'diff -r --no-dereference "$1" . >&2'
BUILDS = """cc -Iinclude -o "$1" src/main.c src/parts/*.c >&2; said=$("$1")
test "$said" = "42 42" || { echo "$said" >&2; exit 1; }"""
# `git status` reads each file anew, as its index is a copy of one that knows no times. It looks at a link twice, and would take
# another inode number for a change (core.checkStat): a file that the kernel forgot in between has one.
CLEAN = """cp "$1.index" "$1.copy"
said=$(GIT_INDEX_FILE="$1.copy" git -c core.checkStat=minimal --git-dir="$1/.git" --work-tree=. status --porcelain 2>&1) || said="$said, status $?"
test -z "$said" || { echo "$said" >&2; exit 1; }"""


def programs_that_work(room, repository, plain):
    """Starts programs that work in the mount over and over."""
    found = []
    for name, script in LOOKS.items():
        at = f"{room.path}/{name}"
        with open(at, "wb") as file:
            same(run_to_end(["sh", "-c", script], cwd=plain, stdout=file)[0], 0)
        same(os.path.getsize(at) > 0, True)
        found.append(room.program_in(COMPARES % script, at))
    git(repository, "read-tree", "HEAD", more={"GIT_INDEX_FILE": f"{repository}.index"})
    found.append(room.program_in(DIFF, plain))
    found.append(room.program_in(BUILDS, f"{room.path}/built"))
    found.append(room.program_in(CLEAN, repository))
    return found


def repository_is_worked_in(room, workers, valid):
    """Has programs work in a commit while daemons take over and the kernel drops what it keeps."""
    repository, plain = make_repository(room)
    tree = ("--git", repository, "--workers", str(workers))
    mount = Mount(room, valid=valid, tree=tree)
    programs = programs_that_work(room, repository, plain)
    for turn in range(TAKEOVERS if room.is_proved else TAKEOVERS_OF_UNPROVED):
        if turn % 4 == 0:
            drop_caches(with_pages=True)
        mount.take_over()
        time.sleep(BETWEEN)
    all_end(programs)
    mount.counts_what_is_held()
    mount.unmount()


@row
def a_commit_is_worked_in_with_1_worker(room):
    """`ls`, `find`, `tar`, `grep`, `sha256sum`, `diff`, a compiler and `git status` work in a commit of 2,000 files, with links and
    executables, while twenty daemons with one worker take over: they find what a plain checkout has."""
    repository_is_worked_in(room, 1, ASKS_AGAIN)


@row
def a_commit_is_worked_in_with_4_workers(room):
    """The same with four workers, and a kernel that keeps what it is told."""
    repository_is_worked_in(room, 4, ())


@row
def a_commit_is_worked_in_with_16_workers(room):
    """The same with sixteen workers, where each look is a request."""
    repository_is_worked_in(room, 16, ASKS_AGAIN)


@row
def links_of_a_commit_are_read_and_followed(room):
    """Each symbolic link of a commit has its target, before a takeover and behind it, also once it lost its name. Links are
    followed as in a plain checkout: to files and directories, to nothing, and round in a circle."""
    repository, _plain = make_repository(room)
    mount = Mount(room, tree=("--git", repository))
    at = os.path.join(mount.path, "src/parts/over")
    held = os.open(at, os.O_PATH | os.O_NOFOLLOW)
    for turn in range(3):
        drop_caches(with_pages=True)
        same({path: os.readlink(mount.at(path)) for path in LINKS if turn == 0 or path != "src/parts/over"},
             {path: target for path, target in LINKS.items() if turn == 0 or path != "src/parts/over"})
        same(os.readlink("", dir_fd=held), LINKS["src/parts/over"])
        same(sorted(os.listdir(mount.at("to_parts"))), sorted(os.listdir(mount.at("src/parts"))))
        same(run_to_end(["cmp", mount.at("to_main"), mount.at("src/main.c")])[0], 0)
        same(run_to_end(["cat", mount.at("dangling"), mount.at("round_a")], stderr=subprocess.DEVNULL)[0], 1)
        if turn == 0:
            os.unlink(at)
        mount.take_over()
    os.close(held)
    mount.unmount()


@row
def an_older_commit_is_mounted_by_its_name(room):
    """COMMIT names what is mounted: a branch, a tag or part of a hash. A daemon that would serve another commit takes nothing
    over, and the one that serves goes on."""
    repository, _plain = make_repository(room)
    git(repository, "tag", "first")
    with open(f"{repository}/later", "w") as file:
        file.write("later\n")
    git(repository, "add", "later")
    git(repository, "commit", "-q", "-m", "two")
    mount = Mount(room, tree=("first", "--git", repository))
    same(os.path.exists(mount.at("later")), False)
    other = room.run("daemon", "--takeover", "broker.sock", "t0", "--git", repository)
    same(other.ending(), ("fault: takeover failed", 1))
    mount.generation += 1
    mount.daemon.printed(f"serving {mount.generation}")
    same(os.path.exists(mount.at("src/main.c")), True)
    mount.take_over()
    same(os.path.exists(mount.at("later")), False)
    mount.unmount()
