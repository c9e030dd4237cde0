"""Rows: programs read files of a mount. Their bytes stand in a directory beside the manifest."""
import errno
import hashlib
import mmap
import os
import random
import shutil
import signal
import socket
import subprocess
import threading
import time

from process_rows.checks import TOP, WAIT, row, same
from process_rows.contents import BORDERS, FROM_FILES, NEEDLE, contents_of, tree_of, write_files, write_manifest
from process_rows.mounted_ends import mounts_anew
from process_rows.mounts import ASKS_AGAIN, CACHES, Mount, all_end, all_work_on, drop_caches, size_of
from process_rows.rooms import run_to_end, start

TAKEOVERS = 5
# How many takeovers there are below programs that read a tree, and how many seconds pass between two: a round of theirs
# takes longer.
BELOW_A_TREE, BETWEEN = 10, 0.5
# Programs that read a whole tree, and say where it is not what stands beside it.
SUMS = 'sha256sum --quiet -c "$1" >&2'
DIFF = 'diff -r "$1" . >&2'
TAR_WORDS = "--sort=name --mtime=@0 --owner=0 --group=0 --numeric-owner ."
TAR = f'tar cf - {TAR_WORDS} | cmp - "$1" >&2'
GREP = 'grep -rlaFx needle . | LC_ALL=C sort | cmp - "$1" >&2'
# Writes a manifest of the folder that it runs in.
BY_FIND = """{ printf 'commit %040d\\n' 0
find . -mindepth 1 -type d -printf 'dir %P\\n' -o -type f -printf 'file %04m %s %P\\n' -o -type l -printf 'link %s %P\\n'; } >../m"""
# A daemon has this many open files at most, however many it read.
OPEN_FILES = 64
# The sizes of a large file, and of one for a program without a proof.
LARGE, LARGE_OF_UNPROVED = 100_000_000, 10_000_000
# What reads a large file to another one, whose path follows.
COPIES = ("cp large", "cp --reflink=auto --sparse=always large", "dd if=large bs=1M status=none of=", "cat large >")
PAGE = mmap.PAGESIZE
# The sizes of reads by dice.
READS = (0, 1, 100, PAGE, 61_439, 61_440, 61_441, 65_512, 65_513, 131_072, 1 << 20)
READERS = 8
# What a small checkout has.
SMALL = {
    "a/short": b"some bytes\n", "a/page": bytes(range(256)) * 16, "a/long": random.Random(3).randbytes(200_000), "empty": b"",
}


def small(room, *options, valid=()):
    """Mounts a small checkout whose files have bytes."""
    write_files(room, SMALL)
    return Mount(room, *FROM_FILES, *options, valid=valid)


def read_whole(path):
    """Returns the bytes of a file, or the number of the error by which reading it ends."""
    try:
        with open(path, "rb", buffering=0) as file:
            return file.readall()
    except OSError as error:
        return error.errno


def reads(mount, contents):
    """Shows that files have these contents, or that reading them ends by these errors."""
    for path, wanted in contents.items():
        if (got := read_whole(mount.at(path))) != wanted:
            raise AssertionError(f"{path}: {shown(got)}, not {shown(wanted)}")


def shown(it):
    """Returns a few words on what a read came to."""
    return f"{len(it)} bytes ({hashlib.sha256(it).hexdigest()[:8]})" if isinstance(it, bytes) else it


def programs_that_read(room, folder, contents):
    """Starts programs that read a whole tree over and over."""
    at = room.path
    sums = "".join(f"{hashlib.sha256(it).hexdigest()}  {path}\n" for path, it in contents.items())
    room.write("sums", sums.encode())
    with open(f"{at}/tar", "wb") as file:
        same(run_to_end(["tar", "cf", "-", "-C", folder, *TAR_WORDS.split()], stdout=file)[0], 0)
    with_needle = sorted(f"./{path}\n" for path, it in contents.items() if it.endswith(NEEDLE))
    room.write("with_needle", "".join(with_needle).encode())
    scripts = ((SUMS, f"{at}/sums"), (DIFF, folder), (TAR, f"{at}/tar"), (GREP, f"{at}/with_needle"))
    return [room.program_in(*it) for it in scripts]


def tree_is_read_below_takeovers(room, workers, valid):
    """Has programs read a tree while daemons take over and the kernel drops what it keeps. Each reads the whole tree once more
    behind the last takeover."""
    contents = tree_of(room)
    folder = write_files(room, contents)
    mount = Mount(room, *FROM_FILES, "--workers", str(workers), valid=valid)
    programs = programs_that_read(room, folder, contents)
    for _ in range(BELOW_A_TREE):
        drop_caches(with_pages=True)
        mount.take_over()
        time.sleep(BETWEEN)
    all_work_on(programs)
    all_end(programs)
    same(len(os.listdir(f"/proc/{mount.daemon.pid}/fd")) <= OPEN_FILES, True)
    mount.counts_what_is_held()
    mount.unmount()


@row
def a_tree_is_read_below_takeovers_with_1_worker(room):
    """`sha256sum`, `diff -r`, `tar` and `grep -r` read a tree while daemons with one worker take over: each file has the bytes
    that stand beside the manifest, also where its size is that of pages, of a READ or of an answer."""
    tree_is_read_below_takeovers(room, 1, ASKS_AGAIN)


@row
def a_tree_is_read_below_takeovers_with_4_workers(room):
    """The same with four workers, and a kernel that keeps names and attributes."""
    tree_is_read_below_takeovers(room, 4, ())


@row
def this_repository_is_read_from_a_manifest_by_find(room):
    """A copy of this repository is mounted by a manifest that `find` writes as docs/MOUNT.md has it: `diff -r` finds it equal to
    the copy, before a takeover and behind it."""
    folder = f"{room.path}/files"
    left_out = shutil.ignore_patterns("out", ".git", "__pycache__")
    shutil.copytree(TOP, folder, symlinks=False, ignore=left_out)
    written = run_to_end(["sh", "-c", BY_FIND], cwd=folder)
    same(written[0], 0)
    mount = Mount(room, *FROM_FILES, valid=())
    for _ in range(2):
        same(run_to_end(["diff", "-r", folder, mount.path])[0], 0)
        drop_caches(with_pages=True)
        mount.take_over()
    mount.unmount()


def read_at(file, size, offset):
    """Reads by one call into memory of its own, as a file that was opened by O_DIRECT wants."""
    room = mmap.mmap(-1, max(size, 1))
    return room[: os.preadv(file, [memoryview(room)[:size]], offset)]


def reads_by_dice(path, content, flags, dice, times):
    """Reads a file at random offsets, near borders and elsewhere, and compares with its content."""
    file = os.open(path, os.O_RDONLY | flags)
    for _ in range(times):
        size = dice.choice(READS)
        near = max(0, dice.choice(BORDERS) + dice.randint(-2, 2))
        offset = dice.choice((near, max(0, len(content) - near), dice.randrange(len(content) + 2 * PAGE)))
        if read_at(file, size, offset) != content[offset : offset + size]:
            raise AssertionError(f"{path}, {flags}: {size} bytes at {offset} are others")
    os.close(file)


@row
def reads_at_any_offset_give_the_bytes_there(room):
    """Programs side by side read files at any offset and of any size, by the kernel's pages and past them (O_DIRECT), while
    daemons take over: they get the bytes that stand there, and none behind the end."""
    contents = contents_of(BORDERS)
    write_files(room, contents)
    mount = Mount(room, *FROM_FILES, "--workers", "4", valid=())
    times, faults = 400 if room.is_proved else 40, []

    def read_all_by(number):
        dice = random.Random(number)
        try:
            for path, content in contents.items():
                reads_by_dice(mount.at(path), content, os.O_DIRECT * (number % 2), dice, times)
        except (AssertionError, OSError) as error:
            faults.append(repr(error))

    readers = [threading.Thread(target=read_all_by, args=(it,)) for it in range(READERS)]
    for it in readers:
        it.start()
    for _ in range(TAKEOVERS):
        drop_caches(with_pages=True)
        mount.take_over()
    for it in readers:
        it.join(3 * WAIT)
    same((faults, any(it.is_alive() for it in readers)), ([], False))
    mount.counts_what_is_held()
    mount.unmount()


@row
def a_large_file_is_copied_over_takeovers(room):
    """`cp`, `dd` and `cat` read a file of 100 MB while a daemon takes over: the copy is equal."""
    content = random.Random(4).randbytes(LARGE if room.is_proved else LARGE_OF_UNPROVED)
    folder = write_files(room, {"large": content})
    mount = Mount(room, *FROM_FILES, valid=())
    for words in COPIES:
        drop_caches(with_pages=True)
        copy = f"{room.path}/copy"
        script = f"{words}{copy}" if words.endswith("=") else f"{words} {copy}"
        child = start(["sh", "-c", script], cwd=mount.path, stderr=subprocess.PIPE)
        mount.take_over()
        same((words, child.communicate(timeout=3 * WAIT)[1], child.returncode), (words, b"", 0))
        same(run_to_end(["cmp", copy, f"{folder}/large"])[0], 0)
        os.remove(copy)
    mount.unmount()


@row
def a_mapped_file_is_read_over_a_takeover(room):
    """A program maps a file, privately and shared, and reads each of its pages, half of them behind a takeover. Behind the
    end of the file its last page is zeros. What the program writes into its own mapping nobody else sees."""
    content = SMALL["a/long"]
    mount = small(room)
    with open(mount.at("a/long"), "rb") as file:
        shared = mmap.mmap(file.fileno(), 0, mmap.MAP_SHARED, mmap.PROT_READ)
        own = mmap.mmap(file.fileno(), 0, mmap.MAP_PRIVATE, mmap.PROT_READ | mmap.PROT_WRITE)
    drop_caches(with_pages=True)
    for number, at in enumerate(range(0, len(content), PAGE)):
        if number == len(content) // PAGE // 2:
            mount.take_over()
            drop_caches(with_pages=True)
        same(own[at : at + PAGE] == content[at : at + PAGE], True)
        own[at] = content[at] ^ 255
    same(shared[:] == content, True)
    shared.close()
    own.close()
    reads(mount, SMALL)
    mount.unmount()


@row
def files_of_a_mount_are_executed(room):
    """A program and a script of a mount are executed, also behind a takeover, and one that runs goes on over it. A file that
    nobody may execute isn't."""
    contents = {"tool": open(shutil.which("sh"), "rb").read(), "script": b'#!/bin/sh\necho "$1 $(($1 * 2))"\n'}
    contents |= {"true": open("/bin/true", "rb").read(), "plain": contents["script"]}
    write_files(room, contents, {it: 0o755 for it in ("tool", "script", "true")})
    mount = Mount(room, *FROM_FILES, valid=())
    script = "while read -r it; do echo $((it + 1)); done"
    running = start([mount.at("tool"), "-c", script], stdin=subprocess.PIPE, stdout=subprocess.PIPE)
    for turn in range(3):
        drop_caches(with_pages=True)
        same(run_to_end([mount.at("true")])[0], 0)
        same(run_to_end([mount.at("script"), "21"], stdout=subprocess.PIPE), (0, b"21 42\n"))
        same(run_to_end(["sh", "-c", '"$1" 2>/dev/null', "sh", mount.at("plain")])[0], 126)
        running.stdin.write(b"%d\n" % turn)
        running.stdin.flush()
        same(running.stdout.readline(), b"%d\n" % (turn + 1))
        mount.take_over()
    running.stdin.close()
    same((running.stdout.read(), running.wait(WAIT)), (b"", 0))
    mount.unmount()


@row
def what_a_file_contains_goes_with_the_file(room):
    """A file that lost its name while it is open is read on, and one that moved is read by its new name, before a takeover and
    behind it. A file that is made is empty, also by a name that the manifest has."""
    mount = small(room)
    held = [os.open(mount.at(it), os.O_RDONLY) for it in ("a/long", "a/page")]
    os.unlink(mount.at("a/long"))
    os.rename(mount.at("a/short"), mount.at("a/page"))
    os.mkdir(mount.at("b"))
    os.rename(mount.at("a/page"), mount.at("b/moved"))
    for it in ("a/long", "b/made"):
        os.close(os.open(mount.at(it), os.O_CREAT | os.O_EXCL | os.O_WRONLY))
    for _ in range(3):
        drop_caches(with_pages=True)
        same([os.pread(it, 1 << 20, 0) for it in held] == [SMALL["a/long"], SMALL["a/page"]], True)
        reads(mount, {"b/moved": SMALL["a/short"], "a/long": b"", "b/made": b"", "a/page": errno.ENOENT, "empty": b""})
        mount.take_over()
    for it in held:
        os.close(it)
    mount.counts_what_is_held()
    mount.unmount()


@row
def a_program_finds_ends_and_holes(room):
    """`lseek` finds the end of a file, and all of it is data. `tail`, `wc` and `sendfile` give what they give elsewhere."""
    mount = small(room)
    size = len(SMALL["a/long"])
    file = os.open(mount.at("a/long"), os.O_RDONLY)
    for _ in range(2):
        drop_caches(with_pages=True)
        places = ((0, os.SEEK_END), (5, os.SEEK_DATA), (5, os.SEEK_HOLE), (-7, os.SEEK_END))
        same([os.lseek(file, *it) for it in places], [size, 5, size, size - 7])
        same(os.read(file, 100), SMALL["a/long"][-7:])
        os.lseek(file, 0, os.SEEK_SET)
        same(error_of(lambda: os.lseek(file, size, os.SEEK_DATA)), errno.ENXIO)
        same(run_to_end(["tail", "-c", "100", mount.at("a/long")], stdout=subprocess.PIPE)[1], SMALL["a/long"][-100:])
        same(run_to_end(["wc", "-c", "a/long"], cwd=mount.path, stdout=subprocess.PIPE)[1], b"%d a/long\n" % size)
        with open(f"{room.path}/copy", "w+b", buffering=0) as copy:
            same(sum(iter(lambda: os.sendfile(copy.fileno(), file, copy.tell(), 1 << 20), 0)), size)
        mount.take_over()
    os.close(file)
    mount.unmount()


def error_of(call):
    """Returns the number of the error by which a call ends."""
    try:
        call()
    except OSError as error:
        return error.errno
    return None


# What may stand in the directory in place of a file, and what is read then of a file that should have these bytes.
WANTED = b"0123456789" * 1000
IN_PLACE = {
    "missing": errno.EIO, "shorter": WANTED[:5000] + bytes(5000), "none": bytes(10_000), "longer": WANTED,
    "directory": errno.EIO, "fifo": errno.EIO, "socket": errno.EIO, "dangling": errno.EIO, "link": errno.EIO,
    "gone/inside": errno.EIO, "file/inside": errno.EIO,
}


def put_in_place(room, folder):
    """Puts in place of files what the manifest doesn't say."""
    for it in ("missing", "shorter", "none", "longer", "directory", "fifo", "socket", "dangling", "link"):
        os.remove(f"{folder}/{it}")
    for it in ("gone", "file"):
        shutil.rmtree(f"{folder}/{it}")
    for name, content in (("shorter", WANTED[:5000]), ("none", b""), ("longer", 2 * WANTED), ("file", WANTED)):
        with open(f"{folder}/{name}", "wb") as file:
            file.write(content)
    os.mkdir(f"{folder}/directory")
    os.mkfifo(f"{folder}/fifo")
    os.symlink("nowhere", f"{folder}/dangling")
    os.symlink("longer", f"{folder}/link")
    listener = socket.socket(socket.AF_UNIX, socket.SOCK_STREAM)
    listener.bind(f"{folder}/socket")
    room.ends.append(listener)


@row
def what_is_not_a_file_is_an_error_and_no_more(room):
    """Beside the manifest a file is missing, or a directory, a pipe, a socket or a symbolic link stands in its place: reading
    it is EIO. One that is shorter reads as zeros behind its end, and one that is longer is cut. All else goes on, and a file
    that comes back is read."""
    folder = write_files(room, {it: WANTED for it in IN_PLACE} | SMALL)
    put_in_place(room, folder)
    mount = Mount(room, *FROM_FILES, "--workers", "1", valid=())
    for _ in range(2):
        reads(mount, IN_PLACE | SMALL)
        same({os.stat(mount.at(it)).st_size for it in IN_PLACE}, {len(WANTED)})
        drop_caches(with_pages=True)
        mount.take_over()
    with open(f"{folder}/missing", "wb") as file:
        file.write(WANTED)
    reads(mount, {"missing": WANTED})
    mount.unmount()


@row
def a_daemon_without_files_reads_none(room):
    """A daemon that is told no directory of files: reading a file is EIO, and an empty one reads as empty. The next daemon is
    told one, and files are read. So they are behind it, as far as the kernel keeps them."""
    write_files(room, SMALL)
    mount = Mount(room, valid=())
    told = {path: errno.EIO if content else b"" for path, content in SMALL.items()}
    reads(mount, told)
    options = mount.options
    mount.options = (*options, *FROM_FILES)
    mount.take_over()
    with CACHES:
        reads(mount, SMALL)
        mount.options = options
        mount.take_over()
        reads(mount, SMALL)
    mount.counts_what_is_held()
    mount.unmount()


@row
def files_of_a_mount_are_no_contents(room):
    """A daemon is to read contents from the mount that it would serve, also where that is bound elsewhere: it is refused, since
    it would wait for itself. Who serves goes on."""
    mount = small(room)
    os.mkdir(f"{room.path}/bound")
    same(run_to_end(["mount", "--bind", mount.path, f"{room.path}/bound"])[0], 0)
    for it in ("mnt", "mnt/a", "bound", "bound/a"):
        room.run("daemon", "--takeover", "broker.sock", "t9", "m", "--files", it).ends(["fault: no files"], 1)
    drop_caches(with_pages=True)
    reads(mount, SMALL)
    same(run_to_end(["umount", f"{room.path}/bound"])[0], 0)
    mount.unmount()


@row
def a_read_waits_for_a_stopped_daemon(room):
    """A daemon is stopped: a read waits for it, and gets its bytes once the daemon goes on. What the kernel keeps is read
    meanwhile. (The attributes of a file that a daemon read are asked once more, since its time of access is one.)"""
    mount = small(room)
    page = SMALL["a/page"]
    long, kept = (os.open(mount.at(it), os.O_RDONLY) for it in ("a/long", "a/page"))
    got = []
    reader = threading.Thread(target=lambda: got.append(os.pread(long, 1 << 20, 0)))
    with CACHES:
        same(os.pread(kept, len(page), 0), page)
        os.kill(mount.daemon.pid, signal.SIGSTOP)
        reader.start()
        same(os.pread(kept, len(page), 0), page)
    reader.join(0.5)
    same((reader.is_alive(), got), (True, []))
    os.kill(mount.daemon.pid, signal.SIGCONT)
    reader.join(WAIT)
    same(got == [SMALL["a/long"]], True)
    for it in (long, kept):
        os.close(it)
    mount.unmount()


@row
def a_read_fails_where_the_daemon_is_killed(room):
    """A daemon is killed: what the kernel doesn't keep can't be read, and is no end of the file. The next mount reads it."""
    contents = SMALL | {"d5/f5": bytes(size_of(5, 5))}
    write_files(room, contents)
    mount = Mount(room, *FROM_FILES, valid=())
    held = os.open(mount.at("a/long"), os.O_RDONLY)
    mount.daemon.kill()
    mount.broker.printed("dead")
    for call in (lambda: os.pread(held, 100, 0), lambda: os.close(held)):
        same(error_of(call) in (errno.ENOTCONN, errno.ECONNABORTED), True)
    mounts_anew(room, mount)
    reads(mount, contents)
    mount.unmount()


def writes_to_a_mapping(path):
    """Writes to memory that is shared with a file, and returns the error by which that ends."""
    with open(path, "r+b") as file, mmap.mmap(file.fileno(), 0) as shared:
        shared[0] ^= 255
        return error_of(shared.flush)


@row
def who_writes_is_told_and_changes_nothing(room):
    """A program that writes to a file, or cuts it, is told that it can't; the file has its bytes, before a takeover and behind
    it. What one writes to memory that it shares with a file is lost, and it is told so."""
    mount = small(room)
    calls = (
        lambda file: os.pwrite(file, b"other", 0), lambda file: os.pwrite(file, b"more", 1 << 20),
        lambda file: os.ftruncate(file, 3),
    )
    for _ in range(2):
        with open(mount.at("a/long"), "r+b", buffering=0) as file:
            same([error_of(lambda it=it: it(file.fileno())) for it in calls], [errno.ENOSYS] * len(calls))
        same(error_of(lambda: os.close(os.open(mount.at("a/page"), os.O_WRONLY | os.O_TRUNC))), errno.ENOSYS)
        reads(mount, SMALL)
        same(writes_to_a_mapping(mount.at("a/page")), errno.ENOSYS)
        drop_caches(with_pages=True)
        reads(mount, SMALL)
        mount.take_over()
    mount.unmount()
