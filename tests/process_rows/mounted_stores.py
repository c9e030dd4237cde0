"""Rows: a repository of git behind a mount is slow, fails or goes away, and its processes are stopped or killed."""
import concurrent.futures
import errno
import mmap
import os
import random
import shutil
import signal
import subprocess
import threading
import time
import zlib

from process_rows.checks import WAIT, row, row_of_proved, same, took_between
from process_rows.mounts import Mount, drop_caches, until
from process_rows.repositories import git, says
from process_rows.rooms import run_to_end

# The sizes of a file that no cache of a megabyte has room for, and of one for a program without a proof.
LARGE, LARGE_OF_UNPROVED = 60_000_000, 3_000_000
# For how many seconds git may be silent, and a worker waits at most.
SILENCE, LONGEST_WAIT = 5, 20
READERS = 8
# A git in front of the real one. What it is asked by the processes that stay it notes, or answers as its file says.
IN_FRONT = """#!/bin/sh
case "$*" in
*"cat-file --batch") ;;
*) exec "$REAL_GIT" "$@" ;;
esac
if [ -e "$0.answer" ]; then
  while read -r object; do sed "s/OID/$object/" "$0.answer"; done
  exit
fi
if [ -e "$0.slowly" ]; then
  while read -r object; do
    printf '%s blob %d\\n' "$object" "$("$REAL_GIT" -C "$2" cat-file -s "$object")"
    "$REAL_GIT" -C "$2" cat-file blob "$object" | split -b 1M --filter='sleep 3; cat'
    echo
  done
  exit
fi
if [ -e "$0.halves" ]; then
  while read -r object; do
    printf '%s blob %d\\n' "$object" "$(($(wc -c <"$0.halves") * 2))"
    cat "$0.halves"
    sleep 2
    cat "$0.halves"
    echo
  done
  exit
fi
if [ -e "$0.hangs" ]; then
  while read -r object; do
    grep -q "$object" "$0.hangs" && exec sleep 1000
    echo "$object" | "$REAL_GIT" "$@"
  done
  exit
fi
tee -a "$0.asked" | "$REAL_GIT" "$@"
"""


def small_files(count=40):
    """Returns the contents of small files, by their paths."""
    dice = random.Random(5)
    return {f"d{at % 4}/f{at}": b"%d " % at + dice.randbytes(dice.randrange(5000)) for at in range(count)}


def repository_of(room, contents):
    """Makes a repository with one commit of these contents, and returns its path."""
    path = f"{room.path}/repository"
    os.mkdir(path)
    git(path, "init", "-q")
    for name, content in contents.items():
        os.makedirs(os.path.dirname(f"{path}/{name}"), exist_ok=True)
        with open(f"{path}/{name}", "wb") as file:
            file.write(content)
    git(path, "add", "-A")
    git(path, "commit", "-q", "-m", "one")
    return path


def mounted(room, contents, *options, env=None):
    """Mounts a commit of these contents, and returns the mount and the repository. The daemon finds git by `env`, where that is
    said."""
    path = repository_of(room, contents)
    plain = room.run
    if env:
        room.run = lambda *words, **streams: plain(*words, env=env, **streams)
    mount = Mount(room, *options, tree=("--git", path))
    room.run = plain
    return mount, path


def gits_of(mount):
    """Returns the processes of git that a daemon has."""
    found = run_to_end(["pgrep", "-P", str(mount.daemon.pid), "git"], stdout=subprocess.PIPE)[1]
    return [int(it) for it in found.split()]


def read(mount, name):
    """Returns the bytes of a file, or the number of the error by which reading it ends."""
    try:
        with open(mount.at(name), "rb", buffering=0) as file:
            return file.readall()
    except OSError as error:
        return error.errno


def read_once(mount, name, offset=0):
    """Reads the bytes from an offset on by one request: of one that fails the kernel tells the error, where it else asks once
    more."""
    file = os.open(mount.at(name), os.O_RDONLY | os.O_DIRECT)
    try:
        room = mmap.mmap(-1, 1 << 15)
        return room[: os.preadv(file, [room], offset)]
    except OSError as error:
        return error.errno
    finally:
        os.close(file)


class SeenOnce(threading.Thread):
    """A thread that reads a file by one request, with what that gave and how long it took."""

    def __init__(self, mount, name):
        super().__init__(daemon=True)
        self.mount, self.name, self.gave, self.took = mount, name, None, None
        self.start()

    def run(self):
        began = time.monotonic()
        self.gave = read_once(self.mount, self.name)
        self.took = time.monotonic() - began

    def gives(self, wanted, least):
        """Shows that it ends, not before so many seconds, and gives this."""
        self.join(WAIT)
        same((self.name, self.gave), (self.name, wanted))
        took_between(least, self.took, LONGEST_WAIT, self.name)


def reads(mount, contents):
    """Shows that files have these contents, or that reading them ends by these errors."""
    for name, wanted in contents.items():
        if (got := read(mount, name)) != wanted:
            raise AssertionError(f"{name}: {got if isinstance(got, int) else len(got)} is not what it has")


def all_read(mount, contents, count, meanwhile=None):
    """Has several threads read files at once, and shows that each file has these contents for each of them. Something may be
    done meanwhile."""
    with concurrent.futures.ThreadPoolExecutor(count) as pool:
        under_way = [pool.submit(reads, mount, contents) for _ in range(count)]
        if meanwhile:
            meanwhile()
        for it in under_way:
            it.result()


def ends_with(mount, *said):
    """Unmounts, and shows that the daemon said this."""
    mount.unmount()
    text = mount.daemon.said()
    for it in said:
        if it not in text:
            raise AssertionError(f"{text!r} has no {it!r}")


@row
def a_git_that_is_killed_is_started_again(room):
    """The processes of git are killed again and again while programs read: each file has its bytes, and nothing is said. At the
    end of the daemon the last ones end too."""
    contents = small_files()
    mount, _ = mounted(room, contents)
    for name, content in contents.items():
        reads(mount, {name: content})
        for it in gits_of(mount):
            os.kill(it, signal.SIGKILL)
    last = gits_of(mount)
    mount.unmount()
    same(mount.daemon.said(), "")
    until(lambda: not any(os.path.exists(f"/proc/{it}") for it in last), "the end of git")


@row
def a_git_that_stands_still_fails_one_read(room):
    """A process of git stands still: the read that waits for it ends by EIO, and is said with the name of the file. What was fetched
    is served on, and so are other files meanwhile: by another process. Behind that the same file is read."""
    contents = small_files()
    names = list(contents)
    env, at = with_git_in_front(room)
    mount, path = mounted(room, contents, "--workers", "4", env=env)
    hangs_at(at, path, names[1])
    reads(mount, {names[0]: contents[names[0]]})
    failing = SeenOnce(mount, names[1])
    time.sleep(0.5)
    reads(mount, {it: contents[it] for it in names[2:6]})
    drop_caches(with_pages=True)
    reads(mount, {names[0]: contents[names[0]]})
    same(failing.is_alive(), True)
    failing.gives(errno.EIO, SILENCE - 1)
    hangs_at(at, path)
    reads(mount, {names[1]: contents[names[1]]})
    ends_with(mount, f"edend: cannot read {names[1]}: git did not answer in time\n")


@row
def a_read_behind_some_that_fail_goes_on(room):
    """Programs wait for processes of git that stand still, as many as fetch small files, and one more waits behind them. The reads
    before it fail, and the last one's is asked of another process."""
    contents = small_files()
    names = list(contents)
    env, at = with_git_in_front(room)
    mount, path = mounted(room, contents, "--workers", "4", env=env)
    hangs_at(at, path, *names[1:3])
    threads = []
    for name in names[1:4]:
        threads.append(SeenOnce(mount, name))
        time.sleep(0.5)
    for it in threads[:2]:
        it.gives(errno.EIO, SILENCE - 1)
    threads[2].gives(contents[names[3]], SILENCE - 2)
    mount.unmount()


@row
def a_repository_that_goes_away_is_missed_by_what_was_not_read(room):
    """The objects of a repository are moved away: files that were read are served on, others end by EIO and are named. Once
    they are back, these are read too, also by a daemon that takes over."""
    contents = small_files()
    mount, path = mounted(room, contents)
    names = list(contents)
    known = {name: contents[name] for name in names[:5]}
    reads(mount, known)
    os.rename(f"{path}/.git/objects", f"{path}/away")
    drop_caches(with_pages=True)
    reads(mount, known | {names[5]: errno.EIO})
    os.rename(f"{path}/away", f"{path}/.git/objects")
    reads(mount, contents)
    os.rename(path, f"{path}-moved")
    drop_caches(with_pages=True)
    reads(mount, known)
    os.rename(f"{path}-moved", path)
    mount.take_over()
    reads(mount, contents)
    mount.unmount()


def id_of(path, name):
    """Returns the id of the object that a repository has for a name."""
    return says(path, "rev-parse", f"HEAD:{name}")


def hangs_at(at, path, *names):
    """Has the git in front, which stands there by this name, stand still where it is asked for one of these files."""
    with open(f"{at}.hangs", "w") as file:
        file.writelines(f"{id_of(path, it)}\n" for it in names)


def asked_of(at):
    """Returns the ids for which the git in front was asked."""
    if not os.path.exists(f"{at}.asked"):
        return []
    with open(f"{at}.asked") as file:
        return file.read().split()


def overwrite_object(path, name, content):
    """Overwrites the file that has the object of a name in a repository."""
    object_id = id_of(path, name)
    at = f"{path}/.git/objects/{object_id[:2]}/{object_id[2:]}"
    os.chmod(at, 0o644)
    with open(at, "wb") as file:
        file.write(content)


def object_of(content):
    """Returns what a file has that has a blob of these bytes as an object."""
    return zlib.compress(b"blob %d\0" % len(content) + content)


@row
def an_object_that_is_damaged_fails_alone(room):
    """The object of one file is overwritten: reading that ends by EIO, and it is named. All other files have their bytes."""
    contents = small_files()
    mount, path = mounted(room, contents)
    name = list(contents)[3]
    overwrite_object(path, name, b"no object")
    reads(mount, contents | {name: errno.EIO})
    ends_with(mount, f"edend: cannot read {name}: ")


@row
def bytes_of_another_name_are_refused(room):
    """The object of one file has other bytes, as many as before, which git gives as they are: reading the file ends by EIO, and
    it is named. The process of git stays, and all other files have their bytes."""
    contents = small_files()
    mount, path = mounted(room, contents)
    name = list(contents)[3]
    overwrite_object(path, name, object_of(contents[name][::-1]))
    reads(mount, {list(contents)[0]: contents[list(contents)[0]]})
    before = gits_of(mount)
    reads(mount, contents | {name: errno.EIO})
    same(set(before) <= set(gits_of(mount)), True)
    ends_with(mount, f"edend: cannot read {name}: the object is damaged: its bytes have another name\n")


@row
def a_large_file_of_another_name_is_not_read_to_its_end(room):
    """The object of a large file has another byte in its first half. What came before the end is read, since its name is known
    only then; the last megabyte is not."""
    content = random.Random(6).randbytes(LARGE_OF_UNPROVED)
    mount, path = mounted(room, {"large": content}, "--cache", "1")
    wrong = bytearray(content)
    wrong[1 << 20] ^= 1
    overwrite_object(path, "large", object_of(wrong))
    same(read_once(mount, "large", len(content) - len(content) % 4096), errno.EIO)
    same(read(mount, "large"), errno.EIO)
    ends_with(mount, "edend: cannot read large: the object is damaged: its bytes have another name\n")


def with_git_in_front(room, answer=None, half=None, slowly=None):
    """Puts a program in front of git, and returns the environment by which it is found, and its path. It may answer each question
    by an answer, by a blob of two halves that are the same, with two seconds between them, or as git does, but with three
    seconds before each megabyte."""
    folder = f"{room.path}/front"
    os.mkdir(folder)
    at = f"{folder}/git"
    with open(at, "w") as file:
        file.write(IN_FRONT)
    os.chmod(at, 0o755)
    for name, content in (("answer", answer), ("halves", half), ("slowly", slowly)):
        if content is not None:
            with open(f"{at}.{name}", "wb") as file:
                file.write(content)
    return {**os.environ, "PATH": f"{folder}:{os.environ['PATH']}", "REAL_GIT": shutil.which("git")}, at


@row
def a_file_that_many_read_is_asked_for_once(room):
    """Programs read the same files at once, again and again: git is asked for each object once."""
    contents = small_files(10)
    env, at = with_git_in_front(room)
    mount, _ = mounted(room, contents, "--workers", "8", env=env)
    all_read(mount, contents, READERS)
    drop_caches(with_pages=True)
    reads(mount, contents)
    asked = asked_of(at)
    same((len(asked), len(set(asked))), (len(contents), len(contents)))
    mount.unmount()


def is_answered_badly(room, answer, said):
    """Shows that a read ends by EIO where git answers so, and what is said then."""
    env, _ = with_git_in_front(room, answer)
    mount, _ = mounted(room, {"file": b"some bytes\n"}, env=env)
    same(read(mount, "file"), errno.EIO)
    ends_with(mount, f"edend: cannot read file: {said}\n")


@row
def an_answer_of_another_size_is_refused(room):
    """Git tells another size than the tree: the read ends by EIO, and it is said."""
    is_answered_badly(room, b"OID blob 12\nsome bytes!\n\n", "the object has another size than its tree says")


@row
def an_answer_that_is_no_blob_is_refused(room):
    """Git has a tree by the file's id."""
    is_answered_badly(room, b"OID tree 11\nsome bytes\n\n", "the object is no blob")


@row
def an_answer_that_is_missing_is_told(room):
    """Git has no such object."""
    is_answered_badly(room, b"OID missing\n", "the repository has no such object")


@row
def an_answer_of_any_words_is_refused(room):
    """Git says what no answer is, also once it was asked again."""
    is_answered_badly(room, b"what?\n", "git gave an answer that cannot be read")


@row
def an_answer_that_goes_on_is_refused(room):
    """Behind a blob stands another byte than LF."""
    is_answered_badly(room, b"OID blob 11\nsome bytes\nand more", "git gave an answer that cannot be read")


@row
def an_answer_that_is_cut_off_is_waited_for(room):
    """The end of an answer lacks: the read ends by EIO once git was silent for five seconds."""
    is_answered_badly(room, b"OID blob 11\nsome", "git did not answer in time")


@row
def a_part_of_a_large_file_is_given_once_it_came(room):
    """Git gives half of a large file, and the rest two seconds later. What is in the first half is read at once, and what is in
    the other half is waited for."""
    half = random.Random(9).randbytes(3 << 19)
    env, _ = with_git_in_front(room, half=half)
    mount, _ = mounted(room, {"file": half * 2}, "--cache", "1", env=env)
    began = time.monotonic()
    same(read_once(mount, "file") == half[: 1 << 15], True)
    took_between(-1, time.monotonic() - began, 2, "the first half")
    same(read_once(mount, "file", 5 << 19) == half[1 << 20 : (1 << 20) + (1 << 15)], True)
    took_between(2, time.monotonic() - began, LONGEST_WAIT, "the other half")
    reads(mount, {"file": half * 2})
    mount.unmount()


@row
def a_wait_goes_on_while_something_comes(room):
    """Git takes 27 seconds for a large file, and gives a megabyte every three: who waits for its end gets it, and so does who waits
    for another large file behind it."""
    dice = random.Random(11)
    contents = {"first": dice.randbytes(9 << 20), "second": dice.randbytes(3 << 19)}
    env, _ = with_git_in_front(room, slowly=b"")
    mount, _ = mounted(room, contents, "--cache", "1", "--workers", "4", env=env)
    got = {}

    def read_end(name):
        offset = len(contents[name]) - (1 << 15)
        got[name] = read_once(mount, name, offset) == contents[name][offset:]

    began = time.monotonic()
    threads = [threading.Thread(target=read_end, args=(name,)) for name in contents]
    for it in threads:
        it.start()
        time.sleep(0.5)
    for it in threads:
        it.join(WAIT)
    same(got, {"first": True, "second": True})
    took_between(LONGEST_WAIT, time.monotonic() - began, 3 * WAIT, "both")
    mount.unmount()


def mounted_with(room, contents, script):
    """Mounts a commit of these contents with little memory for them. The daemon has mounts of its own, which a script makes."""
    path = repository_of(room, contents)
    plain = room.run

    def run(word, *words, **streams):
        if word != "daemon":
            return plain(word, *words, **streams)
        program, room.program = room.program, shutil.which("unshare")
        try:
            return plain("--mount", "sh", "-c", f'{script} && exec "$0" "$@"', program, word, *words, **streams)
        finally:
            room.program = program

    room.run = run
    mount = Mount(room, "--cache", "1", tree=("--git", path))
    room.run = plain
    return mount


@row
def names_that_others_took_are_in_no_way(room):
    """Another user took names in the folders of large files: these are read all the same."""
    content = random.Random(6).randbytes(LARGE_OF_UNPROVED)
    taken = "/tmp/edend-blob-0"
    names = 'mount -t tmpfs none /var/tmp && for at in $(seq 0 200); do touch "/var/tmp/edend-blob-$at"; done'
    with open(taken, "w"):
        mount = mounted_with(room, {"large": content}, names)
    try:
        reads(mount, {"large": content})
    finally:
        os.unlink(taken)
    mount.unmount()
    same(mount.daemon.said(), "")


@row
def a_folder_that_is_read_only_is_passed_over(room):
    """Where /var/tmp is read-only, a large file goes to /tmp."""
    content = random.Random(6).randbytes(LARGE_OF_UNPROVED)
    mount = mounted_with(room, {"large": content}, "mount -t tmpfs -o ro none /var/tmp")
    reads(mount, {"large": content})
    mount.unmount()
    same(mount.daemon.said(), "")


@row
def a_disk_that_is_full_fails_large_files_alone(room):
    """The disk has no room for a large file: reading that ends by EIO, and it is said. Small files are read, and so is the large
    one once there is room."""
    contents = {"large": random.Random(6).randbytes(LARGE_OF_UNPROVED), "small": b"some bytes\n"}
    mount = mounted_with(room, contents, "mount -t tmpfs -o size=1m none /var/tmp")
    reads(mount, {"large": errno.EIO, "small": contents["small"]})
    enter = ["nsenter", "-t", str(mount.daemon.pid), "-m", "mount", "-o", "remount,size=9m", "/var/tmp"]
    same(run_to_end(enter)[0], 0)
    reads(mount, contents)
    ends_with(mount, "edend: cannot read large: it cannot be kept in a file: No space left on device (os error 28)\n")


def reads_by_dice(mount, contents):
    """Reads the small files, and parts of the large one at random places."""
    content = contents["large"]
    reads(mount, {name: it for name, it in contents.items() if name != "large"})
    dice = random.Random(7)
    with open(mount.at("large"), "rb", buffering=0) as file:
        for _ in range(50):
            offset = dice.randrange(len(content))
            same(os.pread(file.fileno(), 5000, offset) == content[offset : offset + 5000], True)


@row
def a_large_file_is_read_beyond_the_cache(room):
    """A file that the cache has no room for is read from its front to its end, at random places, and by several programs at
    once, before a takeover and behind it. No file of it has a name."""
    content = random.Random(6).randbytes(LARGE if room.is_proved else LARGE_OF_UNPROVED)
    contents = small_files() | {"large": content}
    mount, _ = mounted(room, contents, "--cache", "1", "--workers", "4")
    left = set(os.listdir("/var/tmp"))
    for _ in range(2):
        drop_caches(with_pages=True)
        all_read(mount, {"large": content}, 3, lambda: reads_by_dice(mount, contents))
        mount.take_over()
    same(set(os.listdir("/var/tmp")) <= left, True)
    mount.unmount()


@row_of_proved
def the_memory_of_a_daemon_is_bounded(room):
    """A daemon with a cache of a megabyte reads a tree of sixteen, twice: its memory grows by no more than a few."""
    dice = random.Random(8)
    contents = {f"f{at}": dice.randbytes(400_000) for at in range(40)}
    mount, _ = mounted(room, contents, "--cache", "1")
    reads(mount, {"f0": contents["f0"]})
    before = memory_of(mount)
    for _ in range(2):
        drop_caches(with_pages=True)
        reads(mount, contents)
    same(memory_of(mount) - before < 8_000, True)
    mount.unmount()


def memory_of(mount):
    """Returns how many kilobytes of a daemon's own memory are in use."""
    with open(f"/proc/{mount.daemon.pid}/status") as file:
        return next(int(line.split()[1]) for line in file if line.startswith("RssAnon"))


@row
def a_repository_below_a_mount_is_refused(room):
    """A daemon is to serve a repository from the mount that it would serve, also where that is bound elsewhere: git is not run
    there, since it would wait for the daemon. Who serves goes on."""
    contents = small_files(4)
    mount, _ = mounted(room, contents)
    os.mkdir(f"{room.path}/bound")
    same(run_to_end(["mount", "--bind", mount.path, f"{room.path}/bound"])[0], 0)
    for it in ("mnt", "mnt/d1", "bound", "bound/d1"):
        said = f"edend: {it}: it lies in a mount of edend\n"
        room.run("daemon", "--takeover", "broker.sock", "t9", "--git", it).ends(["fault: no repository"], 1, said)
    drop_caches(with_pages=True)
    reads(mount, contents)
    same(run_to_end(["umount", f"{room.path}/bound"])[0], 0)
    mount.unmount()


@row
def links_of_a_directory_are_read(room):
    """The content of a link of a directory is its target, cut or filled with zeros to the manifest's size. It leads nowhere
    outside of the mount. What is no link there, or is missing, ends by EIO and is named."""
    folder = f"{room.path}/files"
    os.makedirs(f"{folder}/d")
    with open(f"{folder}/d/file", "w") as file:
        file.write("some bytes\n")
    targets = {"to_file": "d/file", "cut": "abcdef", "outside": "/etc/hostname", "far": "x/" * 1000}
    for name, target in targets.items():
        os.symlink(target, f"{folder}/{name}")
    lines = [f"commit {'01' * 20}", "dir d", "file 0644 11 d/file", "link 6 to_file", "link 2 cut", "link 13 outside", "link 2000 far"]
    room.write("m", "".join(f"{it}\n" for it in [*lines, "link 3 none", "link 4 d/no_link"]).encode())
    os.link(f"{folder}/d/file", f"{folder}/d/no_link")
    mount = Mount(room, "--files", "files")
    same({it: os.readlink(mount.at(it)) for it in targets}, targets | {"cut": "ab"})
    reads(mount, {"to_file": b"some bytes\n"})
    for it in ("none", "d/no_link"):
        try:
            raise AssertionError(f"{it} leads to {os.readlink(mount.at(it))}")
        except OSError as error:
            same(error.errno, errno.EIO)
    ends_with(mount, "edend: cannot read none: ", "edend: cannot read d/no_link: ")
