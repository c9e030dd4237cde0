"""Rows: this project is worked in as a mounted commit of its own repository."""
import itertools
import subprocess

from process_rows.checks import TOP, row, same
from process_rows.mounts import Mount, drop_caches
from process_rows.repositories import git
from process_rows.rooms import run_to_end, start

# The words by which a script is run from the sources, which are compiled first, and what it prints. `timeout` ends it.
TRY = ("timeout", "350", "tools/try", "world", "examples/first.script")
PRINTS = "examples/first.out"
# How many seconds pass between two takeovers below a compiler.
BETWEEN = 5
DIFF = 'diff -r -x .git --no-dereference "$1" . >&2'
CLEAN = 'test -z "$(GIT_INDEX_FILE="$2" git --git-dir="$1/.git" --work-tree=. status --porcelain 2>&1)" >&2'


def is_as_cloned(room, mount, clone):
    """Shows that `diff -r` and `git status` find nothing in the mount that the clone has not, and lack nothing."""
    index = f"{room.path}/index"
    git(clone, "read-tree", "HEAD", more={"GIT_INDEX_FILE": index})
    for script in (DIFF, CLEAN):
        same(run_to_end(["sh", "-c", script, "sh", clone, index], cwd=mount.path)[0], 0)


def takes_over_while(mount, child):
    """Lets daemons take over time and again until a process ends. At every other time the kernel drops what it keeps."""
    for turn in itertools.count():
        try:
            return child.wait(BETWEEN)
        except subprocess.TimeoutExpired:
            if turn % 2 == 0:
                drop_caches(with_pages=True)
            mount.take_over()


@row
def this_project_is_compiled_in_its_own_mount(room):
    """The commit of this project's own repository is mounted: `diff -r` and `git status` find it equal to a clone. There the
    program is compiled from its sources and runs a script, while daemons take over: it prints what the clone says, and the
    mount is as before."""
    clone = f"{room.path}/clone"
    git(room.path, "clone", "-q", "--no-hardlinks", TOP, clone)
    mount = Mount(room, valid=(), tree=("--git", clone))
    is_as_cloned(room, mount, clone)
    with open(f"{room.path}/printed", "wb") as printed, open(f"{room.path}/said", "wb") as said:
        compiler = start(TRY, cwd=mount.path, stdin=subprocess.DEVNULL, stdout=printed, stderr=said)
    status = takes_over_while(mount, compiler)
    with open(f"{room.path}/said") as said:
        same((status, said.read() if status else ""), (0, ""))
    same(run_to_end(["cmp", f"{room.path}/printed", f"{clone}/{PRINTS}"])[0], 0)
    is_as_cloned(room, mount, clone)
    mount.counts_what_is_held()
    mount.unmount()
