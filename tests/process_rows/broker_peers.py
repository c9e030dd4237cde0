"""Rows: a broker, and peers that are no daemons."""
import os
import struct
import time

from process_rows.checks import WAIT, TooSlow, row, same, took_between
from process_rows.frames import OFFER, drip, frame, u64
from process_rows.new_daemons import part
from process_rows.rooms import ATTR_1


@row
def a_broker_closes_what_no_daemon_sends(room):
    """A frame before Attach, a second Attach, and frames that no daemon sends close their connection."""
    broker = room.broker("seat 1")
    for text in (frame("Take", u64(1)), frame("Mount"), frame("Empty"), OFFER, b"\0\0\0\0\xc8", b"\0\1\0\1\1", b"\0\0\0\0\1"):
        it = room.peer()
        it.end.sendall(text)
        same(it.is_closed(), True)
    for name, body in (("Attach", u64(0)), ("Empty", b""), ("Offer", b"\0"), ("Attached", u64(1)), (200, b"")):
        it = room.peer()
        it.attach()
        it.send(name, body)
        same(it.is_closed(), True)
    it = room.peer()
    same(it.ask("Attach", u64(1)), ("Ended", b""))
    same(it.ask("Attach", u64(99)), ("Ended", b""))
    first = room.peer()
    same(first.attach(), 6)
    for byte in frame("Mount"):
        first.end.sendall(bytes([byte]))
        time.sleep(0.01)
    same(first.read(), ("Mounted", u64(1)))
    broker.printed("ended")
    same(first.ask("Take", u64(1)), ("Ended", b""))
    first.close()
    broker.ends(["seat 1", "ended"])
    same(os.path.exists(room.broker_at), False)


@row
def a_reply_that_cannot_be_read_is_not_asked(room):
    """A Post whose reply can't be read is answered NotAsked; the ask waits on, and the right reply is posted."""
    broker = room.broker("seat 1", "ask getattr 1", "seat 2")
    first, worker = room.peer(), room.peer()
    worker.attach(first.attach())
    same(first.ask("Mount"), ("Mounted", u64(1)))
    name, text = worker.take_ask(1)
    same(name, "Ask")
    same(worker.ask("Post", u64(1) + b"no reply"), ("NotAsked", b""))
    same(worker.ask("Post", u64(1)), ("NotAsked", b""))
    unique = struct.unpack("<Q", text[8:16])[0]
    same(unique, 1)
    error = struct.pack("<IiQ", 16, -5, unique)
    same(worker.ask("Post", u64(1) + error), ("Posted", b""))
    same(worker.ask("Post", u64(1) + error), ("NotAsked", b""))
    same(first.ask("Claim", u64(1)), ("Claimed", u64(2)))
    broker.printed("ended")
    first.close()
    broker.ends(["seat 1", "answer 1 error EIO", "seat 2", "ended"])


@row
def unattached_connections_and_workers_are_few(room):
    """At most 64 connections that didn't attach: the oldest goes for one more. At most 16 of a daemon's workers; a silent
    unattached one is closed."""
    broker = room.broker("seat 1")
    first = room.peer()
    daemon = first.attach()
    began = time.monotonic()
    unattached = [room.peer() for _ in range(64)]
    time.sleep(0.2)
    unattached.append(room.peer())
    same(unattached.pop(0).is_closed(), True)
    took_between(0, time.monotonic() - began, 1.5, "the connection that was too many was closed")
    for it in unattached[:16]:
        same(it.ask("Attach", u64(daemon)), ("Attached", u64(daemon)))
    same(unattached[16].ask("Attach", u64(daemon)), None)
    for it in unattached[17:20]:
        same(it.is_closed(), True)
    took_between(1.5, time.monotonic() - began, 6, "silent connections were closed")
    unattached[0].close()
    until = time.monotonic() + WAIT
    while (answer := room.peer().ask("Attach", u64(daemon))) is None and time.monotonic() < until:
        time.sleep(0.01)
    same(answer, ("Attached", u64(daemon)))
    same(first.ask("Mount"), ("Mounted", u64(1)))
    broker.printed("ended")
    first.close()
    broker.ends(["seat 1", "ended"])


@row
def a_take_that_finds_nothing_is_held(room):
    """A Take that finds nothing is answered Empty after a while, one that is held by a request as soon as it comes."""
    broker = room.broker("seat 1", "seat 2", "ask getattr 1", "seat 3")
    first, worker, other = room.peer(), room.peer(), room.peer()
    worker.attach(first.attach())
    same(first.ask("Mount"), ("Mounted", u64(1)))
    broker.printed("seat 1")
    # A Take waits until a tick ends. The first one may come near that end, and the next one begins with a tick.
    same(worker.ask("Take", u64(1)), ("Empty", b""))
    began = time.monotonic()
    same(worker.ask("Take", u64(1)), ("Empty", b""))
    took_between(0.015, time.monotonic() - began, 1, "an idle Take was answered")
    same(worker.ask("Take", u64(2)), ("Stale", u64(1)))
    same(other.attach(), 2)
    same(other.ask("Take", u64(1)), ("Stale", u64(1)))
    same(first.ask("Claim", u64(1)), ("Claimed", u64(2)))
    name, text = worker.take_ask(2)
    holds = []
    for _ in range(20):
        began = time.monotonic()
        same(worker.ask("Take", u64(2)), ("Empty", b""))
        holds.append(time.monotonic() - began)
    # Others run beside this row, so the least counts: without a request each would last 20 milliseconds.
    if min(holds) > 0.015:
        raise TooSlow(f"each Take of a busy kernel was held for {min(holds)} s")
    same(other.ask("Claim", u64(2)), ("Unanswered", u64(1)))
    error = struct.pack("<IiQ", 16, -5, 1)
    same(worker.ask("Post", u64(2) + error), ("Posted", b""))
    same(other.ask("Claim", u64(2)), ("Claimed", u64(3)))
    first.close()
    broker.printed("ended")
    other.close()
    broker.ends(["seat 1", "seat 2", "answer 1 error EIO", "seat 3", "ended"])


@row
def frames_that_come_together_are_answered_in_their_order(room):
    """A Post and a Take that come together are answered in this order, be it by the next request or by none. So are two Takes, two Posts, and a Post before bytes that are no frame."""
    broker = room.broker("seat 1", *["ask getattr 1"] * 3)
    first, worker, other = room.peer(), room.peer(), room.peer()
    daemon = first.attach()
    worker.attach(daemon)
    other.attach(daemon)
    same(first.ask("Mount"), ("Mounted", u64(1)))
    error = lambda unique: u64(1) + struct.pack("<IiQ", 16, -5, unique)
    worker.take_ask(1)
    worker.end.sendall(frame("Post", error(1)) + frame("Take", u64(1)))
    same(worker.read(), ("Posted", b""))
    if worker.read()[0] == "Empty":
        worker.take_ask(1)
    worker.end.sendall(frame("Take", u64(1)) + frame("Take", u64(1)))
    same([worker.read(), worker.read()], [("Empty", b"")] * 2)
    worker.end.sendall(frame("Post", error(2)) + frame("Post", error(2)) + frame("Take", u64(1)))
    same([name for name, _ in (worker.read(), worker.read())], ["Posted", "NotAsked"])
    # The script asks once it has printed, which may be behind the Take's tick.
    if worker.read()[0] == "Empty":
        worker.take_ask(1)
    other.end.sendall(frame("Post", error(9)) + frame("Post", error(9)) + frame("Mounted", u64(1)))
    same([other.read(), other.read(), other.read()], [("NotAsked", b""), ("NotAsked", b""), None])
    # Behind the last answer the script ends.
    worker.end.sendall(frame("Post", error(3)) + frame("Take", u64(1)))
    same(worker.read(), ("Posted", b""))
    same(worker.read()[0] in ("Ended", "Empty"), True)
    first.close()
    broker.ends(["seat 1", *["answer %d error EIO" % (number + 1) for number in range(3)], "ended"])


@row
def a_request_ends_the_hold_of_a_take(room):
    """A Take that is held for 20 milliseconds is answered as soon as the kernel asks."""
    tries = 5
    broker = room.broker("seat 1", *["ask getattr 1"] * (tries + 1))
    first, worker, other = room.peer(), room.peer(), room.peer()
    daemon = first.attach()
    worker.attach(daemon)
    other.attach(daemon)
    same(first.ask("Mount"), ("Mounted", u64(1)))
    worker.take_ask(1)
    waits = []
    for unique in range(1, tries + 1):
        # The kernel asked more than a second ago, so that a Take is held for 20 milliseconds; it asks behind the reply.
        time.sleep(1.05)
        other.send("Take", u64(1))
        time.sleep(0.002)
        began = time.perf_counter()
        same(worker.ask("Post", u64(1) + struct.pack("<IiQ", 16, -5, unique)), ("Posted", b""))
        if other.read()[0] == "Ask":
            waits.append(time.perf_counter() - began)
        else:
            other.take_ask(1)
        worker, other = other, worker
    if not waits or min(waits) > 0.008:
        raise TooSlow(f"the kernel's asks came after {waits} s")
    same(worker.ask("Post", u64(1) + struct.pack("<IiQ", 16, -5, tries + 1)), ("Posted", b""))
    broker.printed("ended")
    first.close()
    broker.ends(["seat 1", *[f"answer {unique} error EIO" for unique in range(1, tries + 2)], "ended"])


@row
def a_part_of_a_frame_holds_no_broker(room):
    """A frame that began ends within five seconds, or its connection is closed; between frames a daemon may be silent."""
    broker = room.broker("seat 1")
    silent, part, behind, slow = (room.peer() for _ in range(4))
    for it in (silent, part, slow):
        it.attach()
    behind.end.sendall(frame("Attach", u64(0)) + frame("Mount")[:3])
    same(behind.read()[0], "Attached")
    part.end.sendall(frame("Mount")[:2])
    began = time.monotonic()
    drip(slow.end, frame("Take", u64(1)) + frame("Take", u64(1)))
    for it in (slow, part, behind):
        same(it.is_closed(), True)
    took_between(4, time.monotonic() - began, 10, "they were closed")
    time.sleep(1)
    mount = frame("Mount")
    silent.end.sendall(mount[:4])
    time.sleep(1)
    silent.end.sendall(mount[4:])
    same(silent.read(), ("Mounted", u64(1)))
    broker.printed("ended")
    silent.close()
    broker.ends(["seat 1", "ended"])


@row
def a_broker_waits_for_other_daemons(room):
    """A broker's script ends when no first connection but the seat's is open, and the broker when none is."""
    broker = room.broker("seat 1")
    first, other = room.peer(), room.peer()
    same((first.attach(), other.attach()), (1, 2))
    same(first.ask("Mount"), ("Mounted", u64(1)))
    broker.printed(1)
    time.sleep(0.2)
    same(broker.lines, ["seat 1"])
    other.close()
    broker.printed("ended")
    same(first.ask("Take", u64(1)), ("Ended", b""))
    same(room.peer().ask("Attach", u64(0)), ("Ended", b""))
    time.sleep(0.2)
    same(broker.child.poll(), None)
    first.close()
    broker.ends(["seat 1", "ended"])


@row
def a_peer_that_does_not_read_stops_nobody(room):
    """A peer that sends and never reads is closed, and the others are served."""
    broker = room.broker("seat 1", "ask getattr 1")
    deaf = room.peer()
    deaf.attach()
    deaf.end.settimeout(0.3)
    try:
        for _ in range(4000):
            deaf.end.sendall(frame("Take", u64(1)) * 64)
    except (TimeoutError, BrokenPipeError, ConnectionResetError):
        pass
    daemon = room.mount()
    broker.printed(2)
    broker.ends(["seat 1", f"answer 1 {ATTR_1}", "ended"])
    daemon.ends(["serving 1", "ended"])


@row
def attaching_in_vain_buys_no_time(room):
    """A connection that attaches again and again for a daemon that isn't there is closed two seconds after it came."""
    room.broker("seat 1")
    it = room.peer()
    began = time.monotonic()
    while time.monotonic() < began + WAIT:
        try:
            answer = it.ask("Attach", u64(77))
        except OSError:
            break
        if answer is None:
            break
        same(answer, ("Ended", b""))
        time.sleep(0.05)
    took_between(1.5, time.monotonic() - began, 6, "it was closed")
