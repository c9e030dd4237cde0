"""Rows: processes that stand still, and then go on. The time in which a process could not run is nobody's silence."""
import os
import signal
import time

from process_rows.checks import row, same
from process_rows.daemons import mounted_by_hand, offered, serving
from process_rows.frames import ALL_VERSIONS, frame, u32, u64


def stands_still(process, seconds):
    """Stops a process for a while, and lets it go on."""
    os.kill(process.pid, signal.SIGSTOP)
    time.sleep(seconds)
    os.kill(process.pid, signal.SIGCONT)


@row
def an_old_daemon_that_stands_still_counts_no_silence(room):
    """A daemon of a patience of one second stands still for three while it waits for a new one's answer, and again
    behind the data: the takeover goes on where it was."""
    broker, daemon = serving(room, "--patience", "1000", script=("seat 1", "seat 2", "ask getattr 1"))
    it = offered(room)
    stands_still(daemon, 3)
    same(it.ask("Pong", u32(1))[0], "Data")
    stands_still(daemon, 12)
    time.sleep(0.5)
    same(daemon.lines, ["serving 1"])
    it.close()
    broker.printed(3)
    daemon.printed("serving 2")
    same(broker.ending(), ("ended", 0))
    same(daemon.ending(), ("ended", 0))


@row
def a_new_daemon_that_stands_still_counts_no_silence(room):
    """A new daemon of a patience of one second stands still for three in each of its waits: its takeover goes on. What it
    counts of a wait that it stood still in is 300 milliseconds at most, and two of its waits have one deadline."""
    broker, daemon = serving(room, script=("seat 1", "seat 3"))
    image = handed_image(room)
    daemon.printed("serving 2")
    os.rename(room.takeover_at, f"{room.path}/first.sock")
    listener = room.listen(room.takeover_at)
    new = room.take_over(patience="1000")
    other = room.accept(listener)
    same(other.read(), ("Offer", ALL_VERSIONS))
    stands_still(new, 3)
    other.send("Choice", u32(1) + b"\x00\x01")
    stands_still(new, 3)
    same(other.ask("Ready", u32(1) + u64(2)), ("Pong", u32(1)))
    stands_still(new, 7)
    other.send("Data", u32(1) + u64(2) + image.replace(u64(1), u64(2), 1))
    new.printed("serving 3")
    broker.ends(["seat 1", "seat 3", "ended"])
    new.ends(["serving 3", "ended"])


def handed_image(room):
    """Gets an image, and claims nothing. Returns it."""
    it = offered(room)
    name, body = it.ask("Pong", u32(1))
    same(name, "Data")
    it.close()
    return body[12:]


@row
def a_broker_that_stands_still_counts_no_silence(room):
    """A broker stands still for three seconds while a connection is to attach, and for seven within a frame: it goes on
    with both."""
    broker = room.broker("seat 1")
    it = room.peer()
    late = room.peer()
    text = frame("Attach", u64(0))
    it.end.sendall(text[:6])
    time.sleep(0.2)
    stands_still(broker, 3)
    it.end.sendall(text[6:])
    same(it.read()[0], "Attached")
    same(late.ask("Attach", u64(0))[0], "Attached")
    take = frame("Take", u64(0))
    it.end.sendall(take[:7])
    time.sleep(0.2)
    stands_still(broker, 7)
    it.end.sendall(take[7:])
    same(it.read(), ("Ended", b""))


@row
def a_daemon_that_stands_still_within_a_frame(room):
    """A daemon that waits for the rest of its broker's answer stands still for seven seconds, and takes it then."""
    daemon, _first, worker = mounted_by_hand(room)
    text = frame("Ended")
    worker.end.sendall(text[:3])
    time.sleep(0.2)
    stands_still(daemon, 7)
    worker.end.sendall(text[3:])
    daemon.ends(["serving 1", "ended"])
