"""Rows: a daemon is stopped or killed at each frame of a takeover below a program that goes on."""
import os
import resource
import signal
import threading
import time

from process_rows.checks import WAIT, TooSlow, row, same
from process_rows.mounted_ends import STAT, mounts_anew
from process_rows.mounts import Mount, drop_caches, size_of, until

FRAMES = ("Offer", "Choice", "Ready", "Pong", "Data")
SHORT_PATIENCE = "1500"
FAILED = ("fault: takeover failed", 1)


def is_stopped(pid):
    with open(f"/proc/{pid}/stat") as file:
        return file.read().rpartition(") ")[2].startswith("T")


class Stop:
    """A takeover in which a daemon is stopped or killed before a frame is passed on, below a program that looks on."""

    def __init__(self, room, whose, frame, number):
        self.room, self.whose, self.number = room, whose, number
        self.mount = Mount(room, "--patience", SHORT_PATIENCE)
        self.old = self.mount.daemon
        self.program = room.program_in(STAT)
        self.program.works_on()
        self.new = None
        self.is_known, self.is_done = threading.Event(), threading.Event()
        self.new = self.mount.next_daemon(is_whole=True, at=frame, does=self.signal)
        self.is_known.set()
        if not self.is_done.wait(WAIT):
            raise TooSlow(f"no {frame} came: {self.mount.tap.passed} {self.mount.tap.wrong}")

    def signal(self):
        """Stops or kills the daemon, and waits until that is so."""
        self.is_known.wait(WAIT)
        daemon = self.old if self.whose == "old" else self.new
        os.kill(daemon.pid, self.number)
        if self.number == signal.SIGSTOP:
            until(lambda: is_stopped(daemon.pid), "a daemon that is stopped")
        else:
            daemon.child.wait(WAIT)
        self.is_done.set()

    def go_on(self, daemon):
        os.kill(daemon.pid, signal.SIGCONT)

    def served_on(self, daemon, generation):
        """Shows that a daemon serves on at a generation, and that the program's calls all went well."""
        daemon.awaits(lambda lines: lines[-1] == f"serving {generation}", f"serving {generation}")
        self.mount.daemon, self.mount.generation = daemon, generation
        if daemon is self.old:
            self.mount.number -= 1
        self.program.works_on()
        self.program.ends()
        self.mount.counts_what_is_held()
        self.mount.unmount()


def at_each_frame(room, shows, frames=FRAMES):
    """Shows something in a folder of its own for each of some frames."""
    for frame in frames:
        inner = room.inner()
        try:
            shows(inner, frame)
        except Exception as wrong:
            raise AssertionError(f"{frame}: {wrong}; {inner.printed()}") from wrong
        finally:
            inner.clear()


@row
def a_new_daemon_stopped_before_the_data(room):
    """A new daemon is stopped before its data comes: the old one serves on after the patience."""

    def shows(inner, frame):
        it = Stop(inner, "new", frame, signal.SIGSTOP)
        it.old.awaits(lambda lines: lines == ["serving 1", "serving 1"], "serving 1 again")
        it.go_on(it.new)
        same(it.new.ending(), FAILED)
        it.served_on(it.old, 1)

    at_each_frame(room, shows, FRAMES[:3])


@row
def a_new_daemon_stopped_behind_the_data(room):
    """A new daemon is stopped once the data is on its way: the old one claims the seat after ten times the patience."""

    def shows(inner, frame):
        it = Stop(inner, "new", frame, signal.SIGSTOP)
        it.old.printed("serving 2")
        it.go_on(it.new)
        same(it.new.ending(), FAILED)
        it.served_on(it.old, 2)

    at_each_frame(room, shows, FRAMES[3:])


@row
def an_old_daemon_stopped_before_the_data(room):
    """The old daemon is stopped before its data is out: the new one gives up, and the old one serves on once it may."""

    def shows(inner, frame):
        it = Stop(inner, "old", frame, signal.SIGSTOP)
        same(it.new.ending(), FAILED)
        it.go_on(it.old)
        until(lambda: len(it.old.lines) > 1 or it.program.rounds() > 0, "an old daemon that serves on")
        it.program.works_on()
        last = it.old.lines[-1]
        same(last in ("serving 1", "serving 2"), True)
        it.served_on(it.old, int(last.split(" ")[1]))

    at_each_frame(room, shows, FRAMES[:4])


@row
def an_old_daemon_stopped_behind_the_data(room):
    """The old daemon is stopped once its data is out: the new one serves, and the old one ends once it may."""

    def shows(inner, frame):
        it = Stop(inner, "old", frame, signal.SIGSTOP)
        it.new.printed("serving 2")
        it.program.works_on()
        it.go_on(it.old)
        same(it.old.ending(), ("handed over", 0))
        it.served_on(it.new, 2)

    at_each_frame(room, shows, FRAMES[4:])


@row
def a_new_daemon_killed_at_each_frame(room):
    """A new daemon is killed at each frame of a takeover: the old one serves on, and no program's call fails."""

    def shows(inner, frame):
        it = Stop(inner, "new", frame, signal.SIGKILL)
        wanted = (["serving 1"] * 2, ["serving 1", "serving 2"])
        it.old.awaits(lambda lines: lines in wanted, "serving on")
        it.served_on(it.old, int(it.old.lines[-1].split(" ")[1]))

    at_each_frame(room, shows)


@row
def an_old_daemon_killed_at_each_frame(room):
    """The old daemon is killed at each frame of a takeover: the mount is dead, and the next daemon mounts anew. Behind its
    data the new one may claim before the broker hears of it: then that one serves."""

    def shows(inner, frame):
        it = Stop(inner, "old", frame, signal.SIGKILL)
        it.new.printed(1)
        if frame == "Data" and it.new.lines == ["serving 2"]:
            return it.served_on(it.new, 2)
        same(it.new.ending() in (FAILED, ("ended", 0)), True)
        it.mount.broker.printed("dead")
        it.program.fails()
        mounts_anew(inner, it.mount)
        it.mount.counts_what_is_held()
        return it.mount.unmount()

    at_each_frame(room, shows)


def blocked(paths):
    """Looks at paths in threads. Returns the threads, and what they saw."""
    seen = []
    threads = [threading.Thread(target=lambda path=path: seen.append(os.stat(path).st_size), daemon=True) for path in paths]
    for it in threads:
        it.start()
    return threads, seen


@row
def more_asks_than_a_broker_takes(room):
    """While the daemon is stopped 1,100 programs ask: each is answered once it goes on, and a takeover follows."""
    count = 1100
    mount = Mount(room, "--workers", "16")
    os.kill(mount.daemon.pid, signal.SIGSTOP)
    former = threading.stack_size(128 * 1024)
    try:
        threads, seen = blocked([mount.at("work")] * count)
    finally:
        threading.stack_size(former)
    time.sleep(0.5)
    os.kill(mount.daemon.pid, signal.SIGCONT)
    for it in threads:
        it.join(3 * WAIT)
    same(seen, [0] * count)
    mount.take_over_at_rest()
    mount.unmount()


@row
def more_forgets_than_may_wait(room):
    """While the daemon is stopped the kernel forgets 5,000 files: each forget is taken once it goes on."""
    count = 5000 if room.is_proved else 300
    files = "".join(f"file 0644 {number} d/f{number}\n" for number in range(count))
    room.write("m", f"commit {'01' * 20}\ndir d\n{files}".encode())
    soft, hard = resource.getrlimit(resource.RLIMIT_NOFILE)
    resource.setrlimit(resource.RLIMIT_NOFILE, (max(soft, min(hard, 2 * count)), hard))
    mount = Mount(room)
    held = []
    try:
        for number in range(count):
            held.append(os.open(mount.at(f"d/f{number}"), os.O_PATH))
        same(len(mount.counts_what_is_held()), count + 1)
        os.kill(mount.daemon.pid, signal.SIGSTOP)
    finally:
        for it in held:
            os.close(it)
    drop_caches()
    time.sleep(0.5)
    os.kill(mount.daemon.pid, signal.SIGCONT)
    until(lambda: len(mount.counts_what_is_held()) < 10 or drop_caches(), "a kernel that holds little", 3 * WAIT)
    same(os.stat(mount.at("d/f7")).st_size, 7)
    mount.take_over()
    mount.unmount()


@row
def a_program_that_is_killed_while_it_asks(room):
    """A program is killed while its request waits: its entry is counted, and the mount serves on."""
    mount = Mount(room)
    program = room.program_in(STAT)
    program.works_on()
    for _ in range(5):
        os.kill(mount.daemon.pid, signal.SIGSTOP)
        os.killpg(program.child.pid, signal.SIGKILL)
        os.kill(mount.daemon.pid, signal.SIGCONT)
        program.child.wait(WAIT)
        same(os.stat(mount.at("d5/f5")).st_size, size_of(5, 5))
        program = room.program_in(STAT)
        program.works_on()
    program.ends()
    mount.counts_what_is_held()
    mount.take_over_at_rest()
    mount.unmount()
