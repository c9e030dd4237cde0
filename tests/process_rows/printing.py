"""Rows: lines that can't be printed, since a disk is full, a stream is closed or nobody reads a pipe."""
import contextlib
import os
import struct

from process_rows.checks import PATIENCE, WAIT, row, same
from process_rows.daemons import CLOSED as PEER_CLOSED, because, handed_over, offered
from process_rows.frames import u64
from process_rows.printing_to import ALL_SINKS, CLOSED, SINKS, full_disk, printing_to
from process_rows.rooms import ATTR_1, STARTING, run_to_end


# What a daemon says whose peers close before the data, and behind it.
BEFORE_DATA, BEHIND_DATA = (because(f"{PEER_CLOSED} {awaited}") for awaited in ("Pong", "its claim of the seat"))


def daemon_to(out, room, how):
    """Starts a daemon that prints to `out`."""
    return printing_to(out, room, "daemon", how, "--patience", PATIENCE, "broker.sock", "takeover.sock", "m")


class Pipe:
    """A pipe of which the test reads some lines, and then no more."""

    def __init__(self):
        self.reads, self.writes = os.pipe()

    def lines(self, count):
        """Reads `count` lines, and closes the pipe."""
        os.close(self.writes)
        with os.fdopen(self.reads, "rb", buffering=0) as file:
            lines = [file.readline().decode().rstrip("\n") for _ in range(count)]
            with STARTING:
                file.close()
        return lines


def ends_unprinted(running, said, status=1):
    """Compares the end of a process whose line could not be printed."""
    same(running.child.wait(WAIT), status)
    same(running.said(), said)


@row
def a_first_line_may_not_be_printed(room):
    """A broker whose first line meets a full disk or a closed pipe ends with status 1, says why, and its daemon ends."""
    room.write("waits", b"seat 1\nseat 9\n")
    for sink, said in SINKS:
        with sink() as out:
            broker = room.run("broker", "broker.sock", "waits", stdout=out)
            room.await_socket(room.broker_at)
            daemon = room.mount()
            ends_unprinted(broker, said)
            same(daemon.ending(), ("fault: broken", 1))
            # The broker may be gone before the daemon listens.
            with contextlib.suppress(FileNotFoundError):
                os.unlink(room.takeover_at)


@row
def lines_that_cannot_be_printed_are_dropped(room):
    """A daemon whose lines can't be printed serves on, over takeovers that come to nothing, until one succeeds. It ends as
    any other, and says that its lines were lost, behind what it said of those takeovers."""
    for sink, said in ALL_SINKS:
        inner = room.inner()
        broker = inner.broker("seat 1", "seat 2", "ask getattr 1", "seat 3", "ask getattr 1")
        with sink() as out, sink() as other:
            daemon = daemon_to(out, inner, "--mount")
            inner.await_socket(inner.takeover_at)
            offered(inner).close()
            handed_over(inner, 2)
            broker.printed(f"answer 1 {ATTR_1}")
            new = daemon_to(other, inner, "--takeover")
            broker.ends(["seat 1", "seat 2", f"answer 1 {ATTR_1}", "seat 3", f"answer 2 {ATTR_1}", "ended"])
            ends_unprinted(daemon, BEFORE_DATA + BEHIND_DATA + said, 0)
            ends_unprinted(new, said, 0)
        inner.clear()


@row
def a_reader_may_leave(room):
    """A daemon of whose lines somebody reads the first one, and then no more, serves on and ends well."""
    pipe = Pipe()
    broker = room.broker("seat 1", "seat 2", "ask getattr 1")
    daemon = room.mount(stdout=pipe.writes)
    same(pipe.lines(1), ["serving 1"])
    handed_over(room)
    broker.ends(["seat 1", "seat 2", f"answer 1 {ATTR_1}", "ended"])
    ends_unprinted(daemon, BEHIND_DATA + CLOSED, 0)


@row
def a_later_line_of_a_broker_may_not_be_printed(room):
    """A broker whose pipe is closed behind some of its lines ends at the next one, and leaves no socket."""
    lines = ["seat 1", "answer 1 error EIO", "answer 2 error EIO"]
    for count in range(1, len(lines) + 1):
        inner, pipe = room.inner(), Pipe()
        inner.write("script", b"seat 1\nask getattr 1\nask getattr 1\n")
        broker = inner.run("broker", "broker.sock", "script", stdout=pipe.writes)
        inner.await_socket(inner.broker_at)
        acts = acts_by_hand(inner)
        for act in acts[:count]:
            act()
        same(pipe.lines(count), lines[:count])
        acts[count]()
        ends_unprinted(broker, CLOSED)
        same(os.path.exists(inner.broker_at), False)
        inner.clear()


def acts_by_hand(room):
    """Returns what a daemon of the test's own does, and another one: each act lets the broker print a line."""
    first, worker, other = (room.peer() for _ in range(3))
    worker.attach(first.attach())
    other.attach()

    def post(unique):
        same(worker.take_ask(1)[0], "Ask")
        worker.send("Post", u64(1) + struct.pack("<IiQ", 16, -5, unique))
        same((worker.read() or ("Posted",))[0], "Posted")

    return [lambda: first.ask("Mount"), lambda: post(1), lambda: post(2), other.close]


@row
def a_fault_may_not_be_printed(room):
    """A fault that meets a full disk or a closed pipe ends with status 1, and both causes are said, the fault's first. So
    is the end where standard error is full too."""
    room.write("bad", b"seat 1\nseat\n")
    cases = (
        (("daemon", "--mount", "broker.sock", "t", "m"), "edend: broker.sock: No such file or directory (os error 2)\n"),
        (("daemon", "--takeover", "b", "t", "none"), "edend: none: No such file or directory (os error 2)\n"),
        (("broker", "m", "bad"), ""),
        (("broker", "s", "none"), "edend: none: No such file or directory (os error 2)\n"),
    )
    for words, cause in cases:
        for sink, said in SINKS:
            with sink() as out, full_disk() as full:
                ends_unprinted(room.run(*words, stdout=out), cause + said)
                same(run_to_end([room.program, *words], stdout=out, stderr=full, cwd=room.path)[0], 1)
