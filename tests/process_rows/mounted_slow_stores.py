"""Rows: a store of files is slow or stands still. Who reads from it waits, and nobody else does."""
import contextlib
import errno
import mmap
import os
import signal
import subprocess
import threading
import time

from process_rows.checks import WAIT, row, same, took_between
from process_rows.contents import write_manifest
from process_rows.frames import OFFER, u32, u64
from process_rows.mounted_stores import LONGEST_WAIT, SILENCE, hangs_at, mounted, read_once, reads, small_files, with_git_in_front
from process_rows.mounts import Mount, drop_caches
from process_rows.slow_files import SlowFiles

# How many looks are made while a store stands still, and for how many seconds at most.
LOOKS, LOOKING = 200, 4
# How many files one daemon reads at once from a directory, by threads of its own.
THREADS = 16
# For how many seconds a daemon that ends waits for a store.
LAST_WAIT = 1
# How many replies wait for a store in the channel of one worker.
REPLIES = 64


class Reads(threading.Thread):
    """A read that goes on in a thread, with what it gave and when."""

    def __init__(self, mount, name):
        super().__init__(daemon=True)
        self.mount, self.name = mount, name
        self.gave, self.took = None, None
        self.start()

    def run(self):
        began = time.monotonic()
        file = os.open(self.mount.at(self.name), os.O_RDONLY | os.O_DIRECT)
        try:
            room = mmap.mmap(-1, 1 << 15)
            self.gave = room[: os.preadv(file, [room], 0)]
        except OSError as error:
            self.gave = error.errno
        self.took = time.monotonic() - began
        # A file of a mount that is over is closed by an error.
        with contextlib.suppress(OSError):
            os.close(file)

    def waits(self):
        """Shows that it goes on."""
        same(self.is_alive(), True)

    def ends(self, gave, least=-1, most=WAIT):
        """Shows that it ends, and gives this."""
        self.join(WAIT)
        same((self.is_alive(), self.gave), (False, gave))
        took_between(least, self.took, most, self.name)


def looks_around(mount, names):
    """Looks at files, each look by a request, and shows that none of them waits for a store."""
    began = time.monotonic()
    for at in range(LOOKS):
        os.stat(mount.at(names[at % len(names)]))
    took_between(-1, time.monotonic() - began, LOOKING, "looks")


def until_it_waits(reading):
    """Waits until a read waits for its store, behind the moment for which its worker waits."""
    time.sleep(0.3)
    reading.waits()


@row
def a_git_that_stands_still_stops_nobody_else(room):
    """As many processes of git stand still as fetch small files, and the daemon has one worker. Who reads waits and gets EIO once git
    was silent for too long. Until then each look of others is answered, and so are reads of what was fetched before."""
    contents = small_files()
    names = list(contents)
    env, at = with_git_in_front(room)
    mount, path = mounted(room, contents, "--workers", "1", env=env)
    hangs_at(at, path, *names[1:3])
    reads(mount, {names[0]: contents[names[0]]})
    waiting = [Reads(mount, it) for it in names[1:3]]
    for it in waiting:
        until_it_waits(it)
    waiting.append(Reads(mount, names[3]))
    until_it_waits(waiting[2])
    looks_around(mount, names)
    drop_caches(with_pages=True)
    reads(mount, {names[0]: contents[names[0]]})
    for it in waiting[:2]:
        it.ends(errno.EIO, SILENCE - 1, LONGEST_WAIT)
    waiting[2].ends(contents[names[3]])
    mount.unmount()


@row
def a_takeover_waits_for_a_slow_git(room):
    """Git takes three seconds for a file. A daemon takes over meanwhile: it waits until the read got its bytes, and then it
    serves."""
    contents = {"slow": b"some bytes\n" * 50, "other": b"others\n"}
    env, _ = with_git_in_front(room, slowly=b"")
    mount, _ = mounted(room, contents, "--workers", "1", env=env)
    reading = Reads(mount, "slow")
    until_it_waits(reading)
    began = time.monotonic()
    mount.take_over()
    took_between(1, time.monotonic() - began, LONGEST_WAIT, "the takeover")
    reading.ends(contents["slow"], 1)
    reads(mount, {"other": contents["other"]})
    mount.unmount()


def slow_mount(room, contents, *options):
    """Mounts files whose contents stand in a directory that may be slow."""
    write_manifest(room, {name: len(content) for name, content in contents.items()})
    slow = SlowFiles(room, contents)
    return slow, Mount(room, *options, tree=("m", "--files", slow.path))


@row
def a_directory_that_hangs_stops_nobody_else(room):
    """The directory of contents doesn't answer, and the daemon has one worker. Who reads waits. Looks of others are answered, and so
    are reads of other files. Once the directory answers again, all get their bytes."""
    contents = {f"f{at}": b"%d " % at * 700 for at in range(THREADS)}
    slow, mount = slow_mount(room, contents, "--workers", "1")
    names = list(contents)
    try:
        slow.hold(*names[:THREADS - 1])
        waiting = [Reads(mount, it) for it in names[:THREADS - 1]]
        for it in waiting:
            until_it_waits(it)
        looks_around(mount, names)
        same(read_once(mount, names[-1]), contents[names[-1]])
        slow.let_go()
        for it in waiting:
            it.ends(contents[it.name])
    finally:
        slow.end()
    mount.unmount()


@row
def a_directory_that_hangs_fails_a_read_after_twenty_seconds(room):
    """The directory of contents never answers, for more reads than the daemon has threads. Each ends by EIO once it was waited for
    twenty seconds, and is said. Other files are read once it answers again, also by the next daemon."""
    contents = {f"f{at}": b"%d " % at * 700 for at in range(THREADS + 4)}
    slow, mount = slow_mount(room, contents, "--workers", "2")
    names = list(contents)
    try:
        slow.hold(*names)
        waiting = [Reads(mount, it) for it in names]
        for it in waiting:
            it.ends(errno.EIO, LONGEST_WAIT - 1, LONGEST_WAIT + 10)
        looks_around(mount, names)
        slow.let_go()
        old = mount.daemon
        mount.take_over()
        same(f"edend: cannot read {names[0]}: it was not read in time\n" in old.said(), True)
        reads(mount, contents)
        mount.unmount()
        same(mount.daemon.said(), "")
    finally:
        slow.end()


@row
def one_read_too_many_fails_at_once(room):
    """The directory of contents doesn't answer, and 64 reads wait for it in the channel of the daemon's one worker. One more ends at
    once by EIO, and it is said that too many wait. The 64 get their bytes once the directory answers."""
    contents = {f"f{at}": b"%d " % at * 700 for at in range(REPLIES + 1)}
    slow, mount = slow_mount(room, contents, "--workers", "1")
    names = list(contents)
    try:
        slow.hold(*names)
        waiting = [Reads(mount, it) for it in names[:REPLIES]]
        time.sleep(1)
        Reads(mount, names[-1]).ends(errno.EIO, -1, LONGEST_WAIT / 2)
        for it in waiting:
            it.waits()
        slow.let_go()
        for it in waiting:
            it.ends(contents[it.name])
    finally:
        slow.end()
    mount.unmount()
    same(mount.daemon.said(), f"edend: cannot read {names[-1]}: too many reads of this worker wait\n")


def taken_over(room, mount, slow):
    """Lets a new daemon take over, and returns it."""
    before = f"t{mount.number - 1}"
    new = room.run("daemon", "--takeover", "broker.sock", before, "m", "--files", slow.path)
    new.printed("serving 2")
    return new


@row
def a_takeover_is_given_up_while_a_directory_hangs(room):
    """The directory of contents doesn't answer while a new daemon takes over: the old one gives that up and serves on, so that the
    read gets its bytes in the end. The next takeover succeeds."""
    contents = {f"f{at}": b"%d " % at * 700 for at in range(4)}
    slow, mount = slow_mount(room, contents, "--workers", "1", "--patience", "1000")
    names = list(contents)
    try:
        slow.hold(names[0])
        reading = Reads(mount, names[0])
        until_it_waits(reading)
        it = room.run("daemon", "--takeover", "broker.sock", f"t{mount.number}", "m", "--files", slow.path, "--patience", "1000")
        it.ends(["fault: takeover failed"], 1)
        reading.waits()
        looks_around(mount, names)
        slow.let_go()
        reading.ends(contents[names[0]])
        mount.number += 1
        old, mount.daemon = mount.daemon, taken_over(room, mount, slow)
        old.ends(["serving 1", "serving 1", "handed over"], error="takeover failed: reads of files took too long\n")
        drop_caches(with_pages=True)
        reads(mount, contents)
    finally:
        slow.end()
    mount.unmount()


@row
def a_takeover_counts_no_wait_for_the_broker_as_one_for_reads(room):
    """The broker stands still for three times the patience in which a daemon is to hand over, while a read waits for a directory. The
    daemon waits on, and as long as its patience lasts once the broker goes on: it is ready when the read got its bytes."""
    contents = {"f": b"some bytes\n" * 50}
    slow, mount = slow_mount(room, contents, "--workers", "1", "--patience", "1000")
    try:
        slow.hold("f")
        reading = Reads(mount, "f")
        until_it_waits(reading)
        os.kill(mount.broker.pid, signal.SIGSTOP)
        new = room.peer(f"{room.path}/t0")
        new.end.sendall(OFFER)
        same(new.read(), ("Choice", u32(1) + b"\x00\x01"))
        time.sleep(3)
        os.kill(mount.broker.pid, signal.SIGCONT)
        time.sleep(0.3)
        slow.let_go()
        same(new.read(), ("Ready", u32(1) + u64(1)))
        new.close()
        reading.ends(contents["f"])
    finally:
        slow.end()
    mount.unmount()


def with_open_input(room, makes):
    """Calls `makes`, and returns what that returns. The standard input of daemons that it starts is a pipe."""
    plain = room.run

    def run(word, *words, **streams):
        return plain(word, *words, **streams, **({"stdin": subprocess.PIPE} if word == "daemon" else {}))

    room.run = run
    made = makes()
    room.run = plain
    return made


@row
def a_daemon_ends_though_a_directory_hangs(room):
    """Standard input ends while the directory of contents doesn't answer: the read ends by EIO within a second, since the daemon ends,
    which is said. Its process is there until the system ends the read."""
    contents = {"f": b"some bytes\n" * 50, "g": b"others\n"}
    slow, mount = with_open_input(room, lambda: slow_mount(room, contents, "--workers", "1", "--until-closed"))
    try:
        slow.hold("f")
        reading = Reads(mount, "f")
        until_it_waits(reading)
        mount.daemon.child.stdin.close()
        reading.ends(errno.EIO, -1, LAST_WAIT + 2)
        mount.daemon.printed("closed")
        same(mount.daemon.lines, ["serving 1", "closed"])
    finally:
        slow.end()
    mount.daemon.ends(["serving 1", "closed"], error="edend: cannot read f: the daemon ends\n")


@row
def a_daemon_ends_though_git_is_slow(room):
    """Standard input ends while git takes three seconds for a file: the read ends by EIO within a second, since the daemon ends, which
    is said."""
    contents = {"slow": b"some bytes\n" * 50}
    env, _ = with_git_in_front(room, slowly=b"")
    mount, _ = with_open_input(room, lambda: mounted(room, contents, "--workers", "1", "--until-closed", env=env))
    reading = Reads(mount, "slow")
    until_it_waits(reading)
    mount.daemon.child.stdin.close()
    reading.ends(errno.EIO, -1, LAST_WAIT + 2)
    mount.daemon.ends(["serving 1", "closed"], error="edend: cannot read slow: the daemon ends\n")


@row
def a_killed_daemon_is_gone_once_the_directory_answers(room):
    """A daemon is killed while a read waits for a directory that doesn't answer. The system ends its process, and with it the mount,
    once the directory answers: the read of the program ends by an error then."""
    contents = {"f": b"some bytes\n" * 50}
    slow, mount = slow_mount(room, contents, "--workers", "1")
    try:
        slow.hold("f")
        reading = Reads(mount, "f")
        until_it_waits(reading)
        os.kill(mount.daemon.pid, signal.SIGKILL)
        slow.let_go()
        reading.join(WAIT)
        same(reading.gave in (errno.ECONNABORTED, errno.ENOTCONN), True)
        mount.broker.printed("dead")
        mount.daemon.child.wait(WAIT)
    finally:
        slow.end()
