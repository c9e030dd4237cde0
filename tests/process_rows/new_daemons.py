"""Rows: a daemon that takes over from a peer that speaks frames by hand."""
import os
import time

from process_rows.checks import PATIENCE, row, same, took_between
from process_rows.counts import counts_of, handed_to, image_of
from process_rows.daemons import (
    BAD_IMAGE, BUSY, CLOSED, LONG_NAMES, NO_COMMON, NO_IMAGE, ODD, SILENT, because, handed_over, long_checkout, parts_of,
)
from process_rows.frames import ALL_VERSIONS, PART, u32, u64
from process_rows.rooms import ENTRY


def against_a_daemon(room, talk, lines, cause, patience=PATIENCE):
    """Lets a daemon take over from a peer that talks by hand, and compares what it printed and the cause that it told."""
    room.broker("seat 1")
    listener = room.listen(room.takeover_at)
    new = room.take_over(patience=patience)
    other = room.accept(listener)
    same(other.read(), ("Offer", ALL_VERSIONS))
    talk(other)
    new.ends(lines, 1, error=because(cause))


@row
def an_offer_may_have_no_version_in_common(room):
    """An offer that is answered NoCommon is refused."""
    against_a_daemon(room, lambda other: other.send("NoCommon"), ["fault: offer refused"], NO_COMMON)


@row
def an_offer_may_come_at_a_bad_time(room):
    """An offer that is answered Busy is refused."""
    against_a_daemon(room, lambda other: other.send("Busy"), ["fault: offer refused"], BUSY)


@row
def a_takeover_fails_where_the_other_daemon_closes(room):
    """A takeover fails where the other daemon closes the connection, and nothing is left of the socket."""
    against_a_daemon(room, lambda other: other.close(), ["fault: takeover failed"], f"{CLOSED} Choice")
    same([name for name in os.listdir(room.path) if name.startswith("takeover.sock.")], [])


@row
def a_takeover_fails_where_the_other_daemon_is_silent(room):
    """A takeover fails where the other daemon is silent."""
    against_a_daemon(room, lambda other: None, ["fault: takeover failed"], f"{SILENT} Choice", patience="500")


@row
def a_takeover_fails_by_a_brokers_frame(room):
    """A takeover fails where the other daemon sends a broker's frame."""
    against_a_daemon(room, lambda other: other.send("Empty"), ["fault: takeover failed"], f"{ODD} Choice")


@row
def a_takeover_fails_by_bad_data(room):
    """A takeover fails where the data can't be raised, and the other daemon is told so."""

    def talk(other):
        other.send("Choice", u32(1) + b"\x00\x01")
        same(other.ask("Ready", u32(1) + u64(1)), ("Pong", u32(1)))
        same(other.ask("Data", u32(1) + u64(1) + b"no image"), ("Failed", u32(1)))

    against_a_daemon(room, talk, ["fault: takeover failed"], BAD_IMAGE)


def part(position, count, text, session=1, generation=1):
    """Returns the body of a part."""
    return u32(session) + u64(generation) + u32(position) + u32(count) + text


@row
def a_takeover_fails_by_a_bad_first_part(room):
    """A takeover fails by the first part where no image begins so, and the other daemon is told at once."""

    def talk(other):
        other.send("Choice", u32(1) + b"\x00\x02")
        same(other.ask("Ready", u32(1) + u64(1)), ("Pong", u32(1)))
        same(other.ask("Part", part(1, 2, b"no image" * 512)), ("Failed", u32(1)))

    against_a_daemon(room, talk, ["fault: takeover failed"], BAD_IMAGE)


@row
def a_takeover_fails_between_parts(room):
    """A takeover fails where the connection ends between two parts; parts that aren't the next one are ignored."""
    images = []

    def talk(other):
        other.send("Choice", u32(1) + b"\x00\x02")
        same(other.ask("Ready", u32(1) + u64(1)), ("Pong", u32(1)))
        first = images[0][:PART]
        other.send("Part", part(2, 2, images[0][PART:]))
        other.send("Part", part(1, 2, first, session=2))
        other.send("Part", part(1, 2, first))
        other.send("Part", part(1, 2, first))
        other.send("Part", part(2, 3, images[0][PART:]))
        other.close()

    long_checkout(room)
    broker = room.broker("seat 1", *(f"ask lookup 1 {name}" for name in LONG_NAMES[:20]), "seat 2")
    first = room.mount(manifest="long")
    broker.printed(21)
    images.append(b"".join(parts_of(room)))
    same((broker.ending(), first.ending()), (("ended", 0), ("ended", 0)))
    os.unlink(room.takeover_at)
    against_a_daemon(room, talk, ["fault: takeover failed"], f"{CLOSED} Part 2 of 2")


@row
def a_new_daemon_waits_longer_behind_pong(room):
    """A new daemon that said it is there waits ten times the patience for the data."""
    ponged = []

    def talk(other):
        other.send("Choice", u32(1) + b"\x00\x01")
        same(other.ask("Ready", u32(1) + u64(1)), ("Pong", u32(1)))
        ponged.append(time.monotonic())

    against_a_daemon(room, talk, ["fault: takeover failed"], f"{SILENT} Data", patience="600")
    took_between(5.5, time.monotonic() - ponged[0], 14, "it ended")


@row
def a_stale_claim_fails(room):
    """A takeover fails where the claim is stale: here another daemon has the seat at another generation."""
    images = []

    def talk(other):
        other.send("Choice", u32(1) + b"\x00\x01")
        same(other.ask("Ready", u32(1) + u64(7)), ("Pong", u32(1)))
        other.send("Data", u32(1) + u64(7) + images[0])

    broker = room.broker("seat 1", "seat 2")
    another = room.peer()
    another.attach()
    first = room.mount()
    first.printed("serving 1")
    images.append(handed_over(room, 1)[2].replace(u64(1), u64(7), 1))
    first.printed("serving 2")
    os.rename(room.takeover_at, f"{room.path}/first.sock")
    listener = room.listen(room.takeover_at)
    new = room.take_over()
    other = room.accept(listener)
    other.read()
    talk(other)
    new.ends(["fault: takeover failed"], 1, error=because("a stale claim: the seat was claimed again before"))
    another.close()
    broker.ends(["seat 1", "seat 2", "ended"])
    first.ends(["serving 1", "serving 2", "ended"])


def is_told_failed(room, version, session):
    """Offers a version, and expects that the daemon chooses it and then has no data for it."""
    it = room.peer(room.takeover_at)
    same(it.ask("Offer", b"\x01" + u32(version)[2:]), ("Choice", u32(session) + u32(version)[2:]))
    same(it.read(), ("Ready", u32(session) + u64(2)))
    same(it.ask("Pong", u32(session)), ("Failed", u32(session)))
    it.close()


@row
def a_count_of_33_bits_goes_in_version_3_alone(room):
    """A daemon that counts 2^32 serves on where a peer has version 1 or 2 alone, and hands over in version 3. Once one
    is forgotten, version 1 will do. The count comes from an image that is changed on its way."""
    broker = room.broker("seat 1", "ask lookup 1 src", "seat 4", "forget 2 1", "idle", "seat 5")
    first = room.mount()
    broker.printed(2)
    peer = room.peer(room.takeover_at)
    generation, image = handed_to(peer, 3)
    same((generation, image[54:71]), (1, u64(2) + b"\0" + u64(1)))
    os.rename(room.takeover_at, f"{room.path}/first.sock")
    listener = room.listen(room.takeover_at)
    second = room.take_over()
    other = room.accept(listener)
    other.read()
    other.send("Choice", u32(1) + b"\x00\x03")
    same(other.ask("Ready", u32(1) + u64(1)), ("Pong", u32(1)))
    other.send("Part", part(1, 1, image[:63] + u64(1 << 32) + image[71:]))
    second.printed("serving 2")
    peer.close()
    first.ends(["serving 1", "handed over"])
    is_told_failed(room, 1, 1)
    is_told_failed(room, 2, 2)
    third = room.take_over()
    third.printed("serving 3")
    second.ends(["serving 2", "handed over"], may_repeat=True, error=because(NO_IMAGE) * 2)
    generation, image = image_of(room.takeover_at, 3)
    same((generation, counts_of(image, 3, generation)), (3, {2: 1 << 32}))
    broker.printed("idle")
    generation, image = image_of(room.takeover_at, 1)
    same((generation, counts_of(image, 1, generation)), (4, {2: (1 << 32) - 1}))
    broker.ends(["seat 1", f"answer 1 {ENTRY}", "seat 4", "asked", "idle", "seat 5", "ended"])
    third.ends(["serving 3", "serving 4", "serving 5", "ended"])
