"""Rows: a daemon that serves, and peers at its socket that are no daemons."""
import time

from process_rows.checks import WAIT, TooSlow, row, row_of_proved, same, took_between
from process_rows.daemons import (
    CLOSED, GIVEN_UP, SILENT, UNSENT, ends_by_claim, ends_by_takeover, handed_over, offered, serving,
)
from process_rows.frames import OFFER, frame, u32, u64


@row
def a_brokers_frame_closes_a_takeover(room):
    """A broker's frame, or one that nobody sends, closes a connection at TAKEOVER, and the daemon serves on."""
    broker, daemon = serving(room)
    for text in (frame("Attach", u64(0)), frame("Ended"), frame("Take", u64(1)), b"\0\0\0\0\xc8", b"\0\0\0\x00\x25"):
        it = room.peer(room.takeover_at)
        it.end.sendall(text)
        same(it.is_closed(), True)
    ends_by_takeover(room, broker, daemon)


@row
def a_silent_peer_is_closed(room):
    """A peer that offers nothing is closed after the patience, and the daemon serves on."""
    broker, daemon = serving(room, "--patience", "300")
    it = room.peer(room.takeover_at)
    began = time.monotonic()
    same(it.is_closed(), True)
    took_between(0.2, time.monotonic() - began, 3, "it was closed")
    ends_by_takeover(room, broker, daemon)


@row
def the_patience_is_two_seconds(room):
    """A daemon whose words name no patience has one of two seconds."""
    broker, daemon = serving(room, patience=None)
    it = room.peer(room.takeover_at)
    began = time.monotonic()
    same(it.is_closed(), True)
    took_between(1.8, time.monotonic() - began, 4.5, "a silent peer was closed")
    ends_by_takeover(room, broker, daemon)


@row
def a_peer_that_is_silent_before_the_data_is_closed(room):
    """A peer that is silent where its answer is wanted is told so and closed, and the daemon serves on."""
    broker, daemon = serving(room, "--patience", "300")
    it = offered(room)
    began = time.monotonic()
    same(it.read(), ("Failed", u32(1)))
    same(it.read(), None)
    took_between(0.2, time.monotonic() - began, 3, "it was closed")
    ends_by_takeover(room, broker, daemon, f"{SILENT} Pong")


@row
def frames_that_say_nothing_buy_no_time(room):
    """A peer that offers again and again where its answer is wanted is closed by the same deadline."""
    broker, daemon = serving(room, "--patience", "600")
    it = offered(room)
    began = time.monotonic()
    told = None
    while told != ("Failed", u32(1)):
        try:
            it.end.sendall(OFFER)
        except BrokenPipeError:
            break
        told = it.read()
        if told not in (("Busy", b""), ("Failed", u32(1)), None):
            raise AssertionError(f"it was told {told}")
        if told is None:
            break
        time.sleep(0.05)
    took_between(0.4, time.monotonic() - began, 4, "it was closed")
    ends_by_takeover(room, broker, daemon, f"{SILENT} Pong")


@row
def a_peer_that_is_silent_behind_the_data_gets_nothing(room):
    """A peer that is silent behind the data is closed after ten times the patience, and the daemon claims the seat."""
    broker, daemon = serving(room, "--patience", "100")
    it = offered(room)
    same(it.ask("Pong", u32(1))[0], "Data")
    began = time.monotonic()
    same(it.read(), ("Failed", u32(1)))
    same(it.read(), None)
    took_between(0.7, time.monotonic() - began, 5, "it was closed")
    ends_by_claim(broker, daemon, f"{SILENT} its claim of the seat")


@row
def a_peer_that_closes_behind_the_data_gets_nothing(room):
    """A peer that closes behind the data gets nothing: the daemon claims the seat, and serves at the next generation."""
    broker, daemon = serving(room)
    handed_over(room)
    ends_by_claim(broker, daemon, f"{CLOSED} its claim of the seat")


@row
def a_peer_that_fails_behind_the_data_gets_nothing(room):
    """A peer that says Failed behind the data gets nothing, and its connection is closed."""
    broker, daemon = serving(room)
    it = offered(room)
    same(it.ask("Pong", u32(1))[0], "Data")
    it.send("Failed", u32(1))
    same(it.read(), None)
    ends_by_claim(broker, daemon, GIVEN_UP)


@row
def a_peer_that_closes_before_the_data_changes_nothing(room):
    """A peer that closes, or says Failed, before the data changes nothing, and sessions go on."""
    broker, daemon = serving(room)
    offered(room, 1).close()
    it = offered(room, 2)
    it.send("Failed", u32(2))
    it.end.sendall(OFFER)
    same(it.read(), ("Choice", u32(3) + b"\x00\x01"))
    same(it.read(), ("Ready", u32(3) + u64(1)))
    it.close()
    it = room.peer(room.takeover_at)
    it.send("Offer", b"\x01\x00\x09")
    same(it.read(), ("NoCommon", b""))
    it.close()
    ends_by_takeover(room, broker, daemon, f"{CLOSED} Pong", GIVEN_UP, f"{CLOSED} Pong")


@row
def a_peer_that_offers_nothing_holds_up_nobody(room):
    """A peer that offers nothing is heard beside one that offers, and another one that offers waits its turn."""
    broker, daemon = serving(room, "--patience", "30000", script=("seat 1", "seat 3"))
    silent = room.peer(room.takeover_at)
    time.sleep(0.1)
    began = time.monotonic()
    it = offered(room)
    took_between(0, time.monotonic() - began, 20, "a silent peer held up another one")
    waiting = room.peer(room.takeover_at)
    waiting.end.sendall(OFFER)
    time.sleep(0.2)
    same(it.ask("Pong", u32(1))[0], "Data")
    it.close()
    same(waiting.read()[0], "Choice")
    same(waiting.read(), ("Ready", u32(2) + u64(2)))
    same(waiting.ask("Pong", u32(2))[0], "Data")
    waiting.close()
    broker.ends(["seat 1", "seat 3", "ended"])
    same(silent.is_closed(), True)
    daemon.child.wait(WAIT)
    daemon.reader.join(WAIT)
    # The next offer may come before the daemon began to serve at generation 2.
    same([line for line in daemon.lines if line != "serving 2"], ["serving 1", "serving 3", "ended"])


@row
def a_peer_that_never_reads_stops_no_mount(room):
    """A peer that offers and never reads is as good as silent."""
    broker, daemon = serving(room, "--patience", "300")
    deaf = room.peer(room.takeover_at)
    deaf.end.settimeout(0.5)
    try:
        for _ in range(3000):
            deaf.end.sendall(OFFER * 16)
    except (TimeoutError, BrokenPipeError, ConnectionResetError):
        pass
    ends_by_takeover(room, broker, daemon, f"{UNSENT} Pong")


def share_of_a_processor(daemon, seconds):
    """Returns the share of a processor that a daemon takes in the next seconds."""
    began, used = time.monotonic(), daemon.used()
    time.sleep(seconds)
    return (daemon.used() - used) / (time.monotonic() - began)


@row_of_proved
def an_idle_daemon_costs_nothing(room):
    """An idle daemon with four workers takes less than 1 % of a processor."""
    broker, daemon = serving(room, "--workers", "4")
    time.sleep(0.5)
    # Rows run beside this one, and a loaded machine makes each step dearer. So one of six looks has to find so little.
    least = 1
    for _ in range(6):
        least = min(least, share_of_a_processor(daemon, 2.5))
        if least < 0.01:
            break
    else:
        raise TooSlow(f"{least:.2%} of a processor at least")
    ends_by_takeover(room, broker, daemon)
