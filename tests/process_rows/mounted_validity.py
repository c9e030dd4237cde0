"""Rows: what a kernel keeps of a mount, for a day where no option says otherwise."""
import errno
import os
import signal
import time

from process_rows.checks import row, same
from process_rows.mounted_ends import error_of, mounts_anew
from process_rows.mounts import CACHES, DIRECTORIES, FILES, WORK, Mount, drop_caches, manifest, size_of, until
from process_rows.rooms import run_to_end

# A program that nobody keeps waiting makes a round in a small part of this time, in seconds.
AT_ONCE = 0.5
# A round of looks at each file of the checkout.
LOOKS = f"""for d in {" ".join(map(str, range(DIRECTORIES)))}; do
  for f in {" ".join(map(str, range(FILES)))}; do [ -f "d$d/f$f" ]; done
done"""
# A round of looks for headers in twelve folders, of which one has them, as a compiler looks.
HEADERS = """for f in 0 1 2 3 4 5 6 7 8 9 10 11 12 13; do
  for d in 0 1 2 3 4 5 6 7 8 9 10; do [ ! -e "d$d/h$f" ]; done; [ -e "d11/f$f" ]
done"""


def kept(room):
    """Returns a mount whose kernel keeps what it is told."""
    return Mount(room, valid=())


def looks_at_all(mount):
    """Looks at each file of the checkout, and shows that it is the manifest's."""
    for directory in range(DIRECTORIES):
        for file in range(FILES):
            same(os.stat(mount.at(f"d{directory}/f{file}")).st_size, size_of(directory, file))


def goes_on_without_the_daemon(room, mount):
    """Shows that a program which looks at each file again makes rounds while the daemon is stopped."""
    os.kill(mount.daemon.pid, signal.SIGSTOP)
    program = room.program_in(LOOKS)
    program.works_on()
    program.ends()
    os.kill(mount.daemon.pid, signal.SIGCONT)


def waits_for_the_daemon(room, mount, script):
    """Shows that a program which runs a script waits while the daemon is stopped, and goes on with it."""
    program = room.program_in(script)
    time.sleep(AT_ONCE)
    same(program.rounds(), 0)
    os.kill(mount.daemon.pid, signal.SIGCONT)
    program.works_on()
    program.ends()


@row
def what_was_looked_at_is_asked_for_no_more(room):
    """A daemon that is stopped is asked for nothing that a program looked at before, and the next one is asked for nothing
    either. What nobody looked at yet waits for it."""
    mount = kept(room)
    with CACHES:
        looks_at_all(mount)
        for _ in range(2):
            goes_on_without_the_daemon(room, mount)
            mount.take_over()
        goes_on_without_the_daemon(room, mount)
    os.kill(mount.daemon.pid, signal.SIGSTOP)
    waits_for_the_daemon(room, mount, "stat none >/dev/null 2>&1 || :")
    mount.counts_what_is_held()
    mount.unmount()


@row
def what_the_kernel_keeps_is_what_is_held(room):
    """Programs look, the kernel drops its caches, and they look again, over takeovers: each daemon counts what the kernel
    holds, and what it dropped is asked for again."""
    mount = kept(room)
    for _ in range(3):
        looks_at_all(mount)
        mount.take_over_at_rest()
        drop_caches()
        mount.take_over_at_rest()
    looks_at_all(mount)
    mount.unmount()


@row
def what_others_change_is_seen_at_once(room):
    """What one program makes, moves and removes another one sees at once, though the kernel keeps what it was told. So it is
    with the counts of links, also of what is open and of a directory, before a takeover and behind it."""
    mount = kept(room)
    for turn in range(2):
        one, two = mount.at(f"{WORK}/one{turn}"), mount.at(f"{WORK}/two{turn}")
        same(error_of(one), errno.ENOENT)
        os.close(os.open(one, os.O_CREAT | os.O_WRONLY, 0o600))
        same((os.stat(one).st_mode & 0o777, os.stat(one).st_nlink, error_of(two)), (0o600, 1, errno.ENOENT))
        moves(one, two)
        replaces(mount, turn, two)
        removes(two, f"{two}.d", mount)
        mount.take_over()
    mount.counts_what_is_held()
    mount.unmount()


def moves(name, to):
    """Moves a file, and shows that it is the same one with the same times, but for the ctime that the kernel gives it. Once
    the kernel dropped that, it is the mount's again."""
    before = os.stat(name)
    os.rename(name, to)
    after = os.stat(to)
    same(error_of(name), errno.ENOENT)
    same((after.st_ino, after.st_nlink, after.st_mtime_ns), (before.st_ino, 1, before.st_mtime_ns))
    same(after.st_ctime_ns >= before.st_ctime_ns, True)
    until(lambda: drop_caches() or os.stat(to).st_ctime_ns == before.st_ctime_ns, "the mount's time")


def replaces(mount, turn, name):
    """Moves another file to a name, and shows that what stood there has no link any more."""
    other = mount.at(f"{WORK}/other{turn}")
    os.close(os.open(other, os.O_CREAT | os.O_WRONLY, 0o640))
    held = os.open(name, os.O_PATH)
    os.rename(other, name)
    same((os.fstat(held).st_nlink, os.stat(name).st_mode & 0o777, error_of(other)), (0, 0o640, errno.ENOENT))
    os.close(held)


def removes(file, directory, mount):
    """Makes a directory, and removes it and a file, and shows that neither has a link any more. The directory above keeps
    its count of links and its times."""
    work = mount.at(WORK)
    before = os.stat(work)
    os.mkdir(directory, 0o700)
    same(os.stat(directory).st_nlink, 2)
    held = [os.open(it, os.O_PATH) for it in (file, directory)]
    os.rmdir(directory)
    os.unlink(file)
    same([os.fstat(it).st_nlink for it in held], [0, 0])
    same([error_of(it) for it in (file, directory)], [errno.ENOENT] * 2)
    after = os.stat(work)
    same((after.st_nlink, after.st_mtime_ns, after.st_ctime_ns), (2, before.st_mtime_ns, before.st_ctime_ns))
    for it in held:
        os.close(it)


def still_told(mount):
    """Returns of how many files of a dead mount a program is told."""
    found = [error_of(mount.at(f"d{directory}/f{file}")) for directory in range(DIRECTORIES) for file in range(FILES)]
    same(set(found) <= {0, errno.ENOTCONN}, True)
    return found.count(0)


def drops(path):
    """Has the kernel drop its caches, and returns whether a file of a dead mount is gone from them."""
    drop_caches()
    return error_of(path) == errno.ENOTCONN


@row
def a_dead_mount_answers_what_the_kernel_kept(room):
    """A daemon is killed: of what the kernel kept a program is still told, until the kernel drops it; all else is not
    connected. The next daemon's mount has nothing of it."""
    mount = kept(room)
    with CACHES:
        looks_at_all(mount)
        mount.daemon.kill()
        mount.broker.printed("dead")
        # Where memory is short the kernel drops some.
        same(still_told(mount) > DIRECTORIES * FILES // 2, True)
    same(error_of(mount.at("d5/none")), errno.ENOTCONN)
    until(lambda: drops(mount.at("d5/f5")), "a file that the kernel dropped")
    daemon = room.run("daemon", "--mount", "broker.sock", "t0", "m", *mount.options)
    daemon.printed("serving 2")
    mount.broker.printed("mounted 2")
    mount.daemon, mount.number, mount.generation = daemon, 0, 2
    looks_at_all(mount)
    mount.unmount()


@row
def a_mount_is_valid_for_as_long_as_is_asked(room):
    """With --valid 1 the kernel asks again after a second."""
    mount = Mount(room, valid=("--valid", "1"))
    path = mount.at("d5/f5")
    same(os.stat(path).st_size, size_of(5, 5))
    os.kill(mount.daemon.pid, signal.SIGSTOP)
    time.sleep(1.5)
    waits_for_the_daemon(room, mount, "stat d5/f5 >/dev/null")
    mount.unmount()


def runs_without_the_daemon(room, mount, script):
    """Shows that a program makes rounds of a script while the daemon is stopped."""
    os.kill(mount.daemon.pid, signal.SIGSTOP)
    program = room.program_in(script)
    program.works_on()
    program.ends()
    os.kill(mount.daemon.pid, signal.SIGCONT)


@row
def a_name_that_is_not_there_is_asked_for_once(room):
    """A program looks for headers in twelve folders, as a compiler does, and another one does so again: the second look costs no
    request, also behind takeovers. Where the kernel keeps nothing each look is a request."""
    mount = kept(room)
    with CACHES:
        program = room.program_in(HEADERS)
        program.works_on()
        program.ends()
        for _ in range(2):
            runs_without_the_daemon(room, mount, HEADERS)
            mount.take_over()
    mount.counts_what_is_held()
    mount.unmount()
    inner = room.inner()
    mount = Mount(inner)
    same(error_of(mount.at("d5/none")), errno.ENOENT)
    os.kill(mount.daemon.pid, signal.SIGSTOP)
    waits_for_the_daemon(inner, mount, "[ ! -e d5/none ]")
    mount.unmount()


def comes_and_goes(mount, makes, removes, name):
    """Shows that a name which was not there is there for another program once it was made, and is not there once it was
    removed."""
    for _ in range(2):
        same(error_of(mount.at(name)), errno.ENOENT)
    makes(mount.at(name))
    same((error_of(mount.at(name)), run_to_end(["test", "-e", mount.at(name)])[0]), (0, 0))
    removes(mount.at(name))
    for _ in range(2):
        same((error_of(mount.at(name)), run_to_end(["test", "-e", mount.at(name)])[0]), (errno.ENOENT, 1))


def makes_file(path):
    os.close(os.open(path, os.O_CREAT | os.O_EXCL | os.O_WRONLY, 0o600))


def opens_or_makes(path):
    os.close(os.open(path, os.O_CREAT | os.O_RDWR, 0o600))


@row
def a_name_that_comes_is_seen_at_once(room):
    """The kernel keeps that a name is not there. Once a program makes it, as a file or a directory, or moves a file there from
    the same directory or another one, each program finds it. Once it is removed or moved away no program does; so before a
    takeover and behind it."""
    mount = kept(room)
    for turn in range(3):
        other, near = mount.at(f"d7/other{turn}"), mount.at(f"d6/near{turn}")
        makes_file(other)
        makes_file(near)
        name = f"d6/none{turn}"
        comes_and_goes(mount, makes_file, os.unlink, name)
        comes_and_goes(mount, opens_or_makes, os.unlink, name)
        comes_and_goes(mount, os.mkdir, os.rmdir, name)
        for it in (other, near):
            comes_and_goes(mount, lambda path, it=it: os.rename(it, path), lambda path, it=it: os.rename(path, it), name)
        with open(other), open(near):
            os.replace(near, other)
        same([error_of(it) for it in (near, other)], [errno.ENOENT, 0])
        mount.take_over()
    mount.counts_what_is_held()
    mount.unmount()


@row
def a_name_below_a_directory_that_moves_is_looked_for_anew(room):
    """A name is not there in a directory, which is moved or removed and made anew: what stands there then is found, also where
    the directory's place was taken by another one that has the name."""
    mount = kept(room)
    for turn in range(2):
        one, two = mount.at(f"{WORK}/one{turn}"), mount.at(f"{WORK}/two{turn}")
        os.mkdir(one)
        os.mkdir(two)
        makes_file(f"{two}/name")
        same([error_of(f"{it}/name") for it in (one, two)], [errno.ENOENT, 0])
        os.rmdir(one)
        same(error_of(f"{one}/name"), errno.ENOENT)
        os.rename(two, one)
        same([error_of(f"{it}/name") for it in (one, two)], [0, errno.ENOENT])
        os.mkdir(two)
        same(error_of(f"{two}/name"), errno.ENOENT)
        makes_file(f"{two}/name")
        same(error_of(f"{two}/name"), 0)
        mount.take_over()
    mount.counts_what_is_held()
    mount.unmount()


@row
def a_dead_mount_keeps_what_was_not_there(room):
    """A daemon is killed: of a name that was not there a program is told so as before, until the kernel drops that. The next
    mount has nothing of it, and finds what its manifest has there."""
    mount = kept(room)
    with CACHES:
        same(error_of(mount.at("d5/none")), errno.ENOENT)
        mount.daemon.kill()
        mount.broker.printed("dead")
        same(error_of(mount.at("d5/none")) in (errno.ENOENT, errno.ENOTCONN), True)
    until(lambda: drops(mount.at("d5/none")), "a name that the kernel dropped")
    room.write("m", manifest() + b"file 0644 0 d5/none\n")
    mounts_anew(room, mount)
    same(error_of(mount.at("d5/none")), 0)
    mount.unmount()


@row
def a_name_is_not_there_for_as_long_as_is_asked(room):
    """With --valid 1 the kernel asks for a name that was not there again after a second."""
    mount = Mount(room, valid=("--valid", "1"))
    for wait in (0, 1.5):
        same(error_of(mount.at("d5/none")), errno.ENOENT)
        time.sleep(wait)
    os.kill(mount.daemon.pid, signal.SIGSTOP)
    waits_for_the_daemon(room, mount, "[ ! -e d5/none ]")
    mount.unmount()
