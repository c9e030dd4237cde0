"""Rows: as many daemons and unattached connections as come to the broker of a mount."""
import socket
import struct
import threading
import time

from process_rows.checks import WAIT, TooSlow, row, same
from process_rows.frames import frame, u64
from process_rows.mounts import Mount, until
from process_rows.rooms import allow_many_files

# How many daemons run at once, and how many come one after another.
MOST_AT_ONCE, COMERS, COMERS_OF_UNPROVED = 1024, 5000, 1500
# How many connections stand open that say nothing, and for how many upgrades others come as fast as they can. A program
# without a proof takes long for each, so it gets fewer, and a pause between two, in seconds.
SILENT, SILENT_OF_UNPROVED, UPGRADES = 2000, 80, 5
PAUSE_OF_UNPROVED = 0.1
# How many seconds a daemon gives the broker for an answer to its Attach.
BROKER_PATIENCE = 5
# How many kilobytes a broker may take more for daemons that left.
MOST_KILOBYTES = 2048


def connected(path):
    """Returns a connection to a socket, and waits for it as long as it takes."""
    end = socket.socket(socket.AF_UNIX, socket.SOCK_STREAM)
    end.connect(path)
    end.settimeout(WAIT)
    return end


def said(end, text):
    """Sends a text, unless the other end closed the connection by then."""
    try:
        end.sendall(text)
    except (BrokenPipeError, ConnectionResetError):
        pass


def attached(path):
    """Attaches as a new daemon. Returns the connection, and the number of the daemon, or none if there is no place."""
    end = connected(path)
    end.sendall(frame("Attach", u64(0)))
    head = end.recv(5, socket.MSG_WAITALL)
    if head == frame("Busy"):
        return end, None
    same(head, frame("Attached", u64(0))[:5])
    return end, struct.unpack(">Q", end.recv(8, socket.MSG_WAITALL))[0]


def kilobytes(running):
    """Returns how much memory a process has."""
    with open(f"/proc/{running.pid}/status") as status:
        return next(int(line.split()[1]) for line in status if line.startswith("VmRSS"))


@row
def daemons_that_left_take_no_place(room):
    """Thousands of daemons come and leave, each with the next number, and the broker's memory doesn't grow; then an upgrade
    succeeds."""
    mount = Mount(room)
    comers = COMERS if room.is_proved else COMERS_OF_UNPROVED
    for number in range(2, comers):
        end, got = attached(room.broker_at)
        same(got, number)
        end.close()
        if number == comers // 5:
            before = kilobytes(mount.broker)
    grown = kilobytes(mount.broker) - before
    if room.is_proved and grown > MOST_KILOBYTES:
        raise AssertionError(f"{comers} daemons cost {grown} kB")
    mount.take_over()
    mount.unmount()


@row
def a_daemon_without_a_place(room):
    """While as many daemons are connected as may, the next one says that it is full. Once one left it has a place."""
    allow_many_files()
    mount = Mount(room)
    ends = [attached(room.broker_at)[0] for _ in range(MOST_AT_ONCE - 1)]
    end, got = attached(room.broker_at)
    same(got, None)
    end.close()
    room.run("daemon", "--takeover", "broker.sock", "t9", "m").ends(["fault: full"], 1)
    for end in ends:
        end.close()
    mount.take_over()
    mount.unmount()


def take_over_in_time(mount):
    """Lets a new daemon take over. Some 4,000 connections may wait to be accepted before each of its own, and it gives the
    broker five seconds for an answer: a machine that is too busy for that shows little. A daemon that is turned away
    earlier is a fault."""
    began = time.monotonic()
    try:
        mount.take_over()
    except AssertionError as error:
        is_late = time.monotonic() - began >= BROKER_PATIENCE
        if is_late and mount.room.running[-1].lines == ["fault: broken"]:
            raise TooSlow("an answer to Attach was awaited in vain") from error
        raise


@row
def upgrades_behind_thousands_of_connections(room):
    """An upgrade succeeds behind thousands of connections to the broker that say nothing, that sent a part of a frame, or
    that were closed: the oldest of them goes for each that comes."""
    allow_many_files()
    mount = Mount(room)
    for text, is_closed in ((b"", False), (frame("Attach", u64(0))[:7], False), (b"", True)):
        ends = []
        for _ in range(SILENT if room.is_proved else SILENT_OF_UNPROVED):
            ends.append(connected(room.broker_at))
            if is_closed:
                ends.pop().close()
            elif text:
                said(ends[-1], text)
        take_over_in_time(mount)
        for end in ends:
            end.close()
    mount.unmount()


class Flood:
    """Connections that come as fast as they can until they are left, of which the last hundred stay open."""

    def __init__(self, path, pause):
        self.path, self.pause, self.is_over, self.came = path, pause, False, 0
        self.thread = threading.Thread(target=self.run, daemon=True)
        self.thread.start()

    def run(self):
        ends = []
        while not self.is_over:
            ends.append(connected(self.path))
            self.came += 1
            time.sleep(self.pause)
            if len(ends) > 100:
                ends.pop(0).close()
        for end in ends:
            end.close()

    def __enter__(self):
        return self

    def __exit__(self, *_error):
        self.is_over = True
        self.thread.join(WAIT)


@row
def upgrades_below_a_flood_of_connections(room):
    """Upgrades succeed one after another while connections come to the broker as fast as they can."""
    mount = Mount(room)
    with Flood(room.broker_at, 0 if room.is_proved else PAUSE_OF_UNPROVED) as flood:
        for _ in range(UPGRADES):
            came = flood.came
            take_over_in_time(mount)
            until(lambda: flood.came >= came + 20, "a flood of connections")
    mount.unmount()
