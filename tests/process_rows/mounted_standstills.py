"""Rows: broker and daemons of a real mount stand still for twenty seconds in each phase of a takeover, one or all, and
then go on. The mount serves on, and no call of a program fails."""
import concurrent.futures
import os
import signal
import threading
import time

from process_rows.checks import WAIT, TooSlow, row, same
from process_rows.mounted_ends import STAT
from process_rows.mounts import Mount, until
from process_rows.mounted_silences import FRAMES, is_stopped

STILL = 20
PATIENCE = "2000"


class Standstill:
    """A takeover in which processes stand still before a frame is passed on, below a program that looks on."""

    def __init__(self, room, whose, frame):
        self.room, self.whose = room, whose
        self.mount = Mount(room, "--patience", PATIENCE)
        self.old, self.new = self.mount.daemon, None
        self.program = room.program_in(STAT)
        self.program.works_on()
        self.is_known, self.is_done = threading.Event(), threading.Event()
        self.new = self.mount.next_daemon(is_whole=True, at=frame, does=self.stop)
        self.is_known.set()
        if not self.is_done.wait(WAIT):
            raise TooSlow(f"no {frame} came: {self.mount.tap.passed} {self.mount.tap.wrong}")

    def processes(self):
        """Returns the processes that stand still."""
        all_of_them = {"broker": self.mount.broker, "old": self.old, "new": self.new}
        return list(all_of_them.values()) if self.whose == "all" else [all_of_them[self.whose]]

    def stop(self):
        """Stops the processes, and waits until that is so."""
        self.is_known.wait(WAIT)
        for it in self.processes():
            os.kill(it.pid, signal.SIGSTOP)
        for it in self.processes():
            until(lambda pid=it.pid: is_stopped(pid), "a process that is stopped")
        self.is_done.set()

    def go_on(self):
        for it in self.processes():
            os.kill(it.pid, signal.SIGCONT)

    def serves(self):
        """Waits until one daemon is left, which serves, and returns it."""
        until(self.last_line, "one daemon that serves", 2 * WAIT)
        return self.new if self.new.is_running() else self.old

    def last_line(self):
        """Returns the last line of the only daemon that runs, if it serves."""
        running = [it for it in (self.new, self.old) if it.is_running()]
        lines = running[0].lines if len(running) == 1 else []
        return lines[-1] if lines and lines[-1].startswith("serving ") else None

    def served_on(self):
        """Shows that one of the daemons serves on, and that the program's calls all went well."""
        self.mount.daemon = daemon = self.serves()
        if daemon is self.old:
            self.mount.number -= 1
        self.program.works_on()
        self.program.ends()
        self.mount.generation = int(self.last_line().split(" ")[1])
        self.mount.counts_what_is_held()
        self.mount.unmount()
        return daemon


def stands_still_at(room, whose, frame):
    """Lets processes stand still at a frame, and shows that the mount serves on. Where all stand still, or the broker
    alone, no daemon gives another one up."""
    try:
        it = Standstill(room, whose, frame)
        time.sleep(STILL)
        it.go_on()
        daemon = it.served_on()
        if whose == "all":
            same(daemon is it.new, True)
    except Exception as wrong:
        raise AssertionError(f"{frame}: {wrong}; {room.printed()}") from wrong
    finally:
        room.clear()


def at_each_frame(room, whose):
    """Lets processes stand still at each frame, in takeovers side by side."""
    rooms = [room.inner() for _ in FRAMES]
    with concurrent.futures.ThreadPoolExecutor(len(FRAMES)) as pool:
        list(pool.map(lambda pair: stands_still_at(pair[0], whose, pair[1]), zip(rooms, FRAMES)))


@row
def all_stand_still_at_each_frame(room):
    """Broker and both daemons stand still for twenty seconds at each frame of a takeover: it goes on where it was."""
    at_each_frame(room, "all")


@row
def a_broker_stands_still_at_each_frame(room):
    """The broker stands still for twenty seconds at each frame of a takeover: the mount serves on."""
    at_each_frame(room, "broker")


@row
def an_old_daemon_stands_still_at_each_frame(room):
    """The old daemon stands still for twenty seconds at each frame of a takeover: the mount serves on."""
    at_each_frame(room, "old")


@row
def a_new_daemon_stands_still_at_each_frame(room):
    """The new daemon stands still for twenty seconds at each frame of a takeover: the mount serves on."""
    at_each_frame(room, "new")
