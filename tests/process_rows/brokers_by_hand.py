"""Rows: a daemon whose broker is a peer that speaks frames by hand."""
import select
import time

from process_rows.checks import TooSlow, row, same, took_between
from process_rows.daemons import CLOSED, because, mounted_by_hand
from process_rows.frames import OFFER, drip, frame, request, u32, u64


def as_broker(room, answers, lines, status):
    """Lets a daemon mount at a peer that answers what it asks by the answers' names, one by one. The first connection is
    `first`; each other name is a worker, whose connection comes where it is answered first."""
    listener = room.listen(room.broker_at)
    workers = {who for who, _wanted, _answer in answers} - {"first"}
    daemon = room.mount("--workers", str(len(workers) or 1))
    ends = {"first": room.accept(listener)}
    for who, wanted, answer in answers:
        if who not in ends:
            ends[who] = room.accept(listener)
        end = ends[who]
        got = end.read()
        same(got and got[0], wanted)
        if answer is None:
            end.close()
        else:
            end.send(*answer)
    daemon.ends(lines, status)


ATTACHING = [("first", "Attach", ("Attached", u64(1))), ("worker", "Attach", ("Attached", u64(1)))]
MOUNTING = [*ATTACHING, ("first", "Mount", ("Mounted", u64(1)))]


@row
def a_broker_may_have_ended(room):
    """A daemon whose Attach is answered Ended ends well."""
    as_broker(room, [("first", "Attach", ("Ended",))], ["ended"], 0)


@row
def a_broker_may_close(room):
    """A daemon whose broker closes the connection is broken."""
    as_broker(room, [("first", "Attach", None)], ["fault: broken"], 1)


@row
def a_broker_may_answer_something_else(room):
    """A daemon whose Mount is answered by another frame is broken."""
    as_broker(room, [*ATTACHING, ("first", "Mount", ("Posted",))], ["fault: broken"], 1)


@row
def a_broker_may_be_silent(room):
    """A daemon whose broker doesn't answer gives up."""
    listener = room.listen(room.broker_at)
    daemon = room.mount()
    room.accept(listener)
    daemon.ends(["fault: broken"], 1)


@row
def a_take_may_be_answered_ended(room):
    """A daemon whose Take is answered Ended ends well."""
    as_broker(room, [*MOUNTING, ("worker", "Take", ("Ended",))], ["serving 1", "ended"], 0)


@row
def a_take_may_be_stale(room):
    """A daemon whose Take is answered Stale while it serves is broken."""
    as_broker(room, [*MOUNTING, ("worker", "Take", ("Stale", u64(2)))], ["serving 1", "fault: broken"], 1)


# GETATTR of the root, and the same with a length that is too great, which the daemon's channel refuses by itself.
GETATTR = request(3, 1, 1, bytes(16))
ASKING = [*MOUNTING, ("worker", "Take", ("Ask", GETATTR))]
ASKING_BADLY = [*MOUNTING, ("worker", "Take", ("Ask", b"\x39" + GETATTR[1:]))]


@row
def a_post_may_be_answered_ended(room):
    """A daemon whose Post is answered Ended ends well: the mount was over while it had an ask in hand."""
    as_broker(room, [*ASKING, ("worker", "Post", ("Ended",))], ["serving 1", "ended"], 0)


@row
def an_error_may_be_answered_ended(room):
    """A daemon ends well, too, where the Post is of a request that it can't read."""
    as_broker(room, [*ASKING_BADLY, ("worker", "Post", ("Ended",))], ["serving 1", "ended"], 0)


@row
def a_post_may_be_stale(room):
    """A daemon whose Post is answered Stale is broken."""
    as_broker(room, [*ASKING, ("worker", "Post", ("Stale", u64(2)))], ["serving 1", "fault: broken"], 1)


@row
def a_post_may_not_be_answered(room):
    """A daemon is broken where a connection is closed in place of a Post's answer."""
    as_broker(room, [*ASKING, ("worker", "Post", None)], ["serving 1", "fault: broken"], 1)


@row
def a_post_may_not_be_answered_behind_an_end(room):
    """A daemon ends well where a connection is closed in place of a Post's answer, but another worker was told Ended."""
    attaching = [*ATTACHING, ("other", "Attach", ("Attached", u64(1)))]
    told = [("worker", "Take", ("Ask", GETATTR)), ("other", "Take", ("Ended",)), ("worker", "Post", None)]
    as_broker(room, [*attaching, MOUNTING[-1], *told], ["serving 1", "ended"], 0)


def breaks_after_five_seconds(daemon, began):
    """Shows that a daemon ends by a fault five seconds later."""
    daemon.ends(["serving 1", "fault: broken"], 1)
    took_between(4, time.monotonic() - began, 10, "it ended")


@row
def a_broker_may_be_slow_to_answer_a_take(room):
    """A daemon whose Take isn't answered for seven seconds waits, and goes on with the answer."""
    daemon, _first, worker = mounted_by_hand(room)
    time.sleep(7)
    same(daemon.lines, ["serving 1"])
    worker.send("Empty")
    same(worker.read(), ("Take", u64(1)))
    worker.send("Ended")
    daemon.ends(["serving 1", "ended"])


@row
def a_broker_may_answer_a_part(room):
    """A daemon is broken where an answer that began isn't whole five seconds later, whatever comes of it."""
    daemon, _first, worker = mounted_by_hand(room)
    time.sleep(1)
    began = time.monotonic()
    drip(worker.end, frame("Ask", bytes(40)))
    breaks_after_five_seconds(daemon, began)


@row
def a_daemon_never_sleeps_between_takes(room):
    """A daemon whose Takes find nothing takes again at once, also where a round ends."""
    daemon, _first, worker = mounted_by_hand(room)
    waits = []
    for _ in range(600):
        worker.send("Empty")
        began = time.perf_counter()
        same(worker.read(), ("Take", u64(1)))
        waits.append(time.perf_counter() - began)
    # A round ends behind ten Takes that found nothing. Others run beside this row, so each place in a round has its least.
    least = [min(waits[place::10]) for place in range(10)]
    if max(least) > 0.001:
        raise TooSlow(f"a Take came after {max(least)} s")
    worker.send("Ended")
    daemon.ends(["serving 1", "ended"])


# How many requests a worker serves in a round, and how long what comes with a Post is waited for, in seconds.
TURNS = 64
MOMENT = 0.2


@row
def the_last_reply_of_a_round_goes_alone(room):
    """A worker sends the next Take with a Post, before that is answered, but for the last Post of a round: between rounds no request
    is in hand, so that a daemon may hand over there."""
    daemon, _first, worker = mounted_by_hand(room)
    for turn in range(1, 2 * TURNS + 1):
        worker.send("Ask", request(3, turn, 1, bytes(16)))
        same(worker.read()[0], "Post")
        comes, _, _ = select.select([worker.end], [], [], MOMENT)
        same((turn, bool(comes)), (turn, turn % TURNS != 0))
        worker.send("Posted")
        same(worker.read(), ("Take", u64(1)))
    worker.send("Ended")
    daemon.ends(["serving 1", "ended"])


@row
def a_broker_may_be_killed(room):
    """A daemon whose broker is killed is broken."""
    broker = room.broker("seat 1", "seat 2")
    daemon = room.mount("--workers", "4")
    daemon.printed("serving 1")
    broker.kill()
    daemon.ends(["serving 1", "fault: broken"], 1)


@row
def a_silent_broker_is_told_of_once(room):
    """A daemon says on standard error that its broker has not answered for five seconds, and then that it answers again:
    each once, though two connections wait."""
    listener = room.listen(room.broker_at)
    daemon = room.mount("--workers", "2")
    first = room.accept(listener)
    same(first.read()[0], "Attach")
    first.send("Attached", u64(1))
    workers = []
    for _ in range(2):
        workers.append(room.accept(listener))
        same(workers[-1].read()[0], "Attach")
        workers[-1].send("Attached", u64(1))
    same(first.read()[0], "Mount")
    first.send("Mounted", u64(1))
    for worker in workers:
        same(worker.read(), ("Take", u64(1)))
    time.sleep(4)
    for worker in workers:
        same(worker.ask("Empty"), ("Take", u64(1)))
    time.sleep(7)
    for worker in workers:
        same(worker.ask("Empty"), ("Take", u64(1)))
    time.sleep(1)
    for worker in workers:
        worker.send("Ended")
    daemon.ends(["serving 1", "ended"])
    same(daemon.said(), "edend: the broker does not answer; waiting for it\nedend: the broker answers again\n")


@row
def a_drain_waits_for_a_silent_broker(room):
    """The broker answers no Take for three times the patience, in which a daemon is to hand over. It waits on, since no reply waits for
    the bytes of a file, and is ready once the broker answers."""
    daemon, _first, worker = mounted_by_hand(room, "--patience", "300")
    it = room.peer(room.takeover_at)
    it.end.sendall(OFFER)
    same(it.read(), ("Choice", u32(1) + b"\x00\x01"))
    time.sleep(0.9)
    worker.send("Empty")
    same(it.read(), ("Ready", u32(1) + u64(1)))
    it.close()
    same(worker.read(), ("Take", u64(1)))
    worker.send("Ended")
    daemon.ends(["serving 1", "ended"], may_repeat=True)
    same(daemon.said(), because(f"{CLOSED} Pong"))
