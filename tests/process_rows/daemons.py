"""A daemon that serves, and a peer that has it hand over."""
import struct

from process_rows.checks import same
from process_rows.frames import OFFER, PART, u32, u64
from process_rows.rooms import ATTR_1

# the causes of a takeover that failed
NO_COMMON = "the daemons have no version of the image in common"
BUSY = "the other daemon takes no offer at present"
CLOSED = "the other daemon closed the connection; awaited was"
SILENT = "the other daemon was silent; awaited was"
UNSENT = "the other daemon can't be written to; awaited was"
ODD = "the other daemon said what no daemon says; awaited was"
BAD_IMAGE = "the image can't be restored"
GIVEN_UP = "the other daemon gave up"
NO_IMAGE = "no image can be made in the chosen version"
OTHER = "another manifest"


def because(cause):
    """Returns the line on standard error that tells the cause of a takeover that failed."""
    return f"edend: takeover failed: {cause}\n"


def serving(room, *options, script=("seat 1", "seat 2", "ask getattr 1"), **others):
    """Starts a broker and a daemon, and waits until the daemon serves."""
    broker = room.broker(*script)
    daemon = room.mount(*options, **others)
    daemon.printed("serving 1")
    return broker, daemon


def mounted_anew(room, *options, manifest="m", **streams):
    """Mounts behind a daemon that ended, and again while that one is still seated. Returns the daemon."""
    for _ in range(100):
        it = room.mount(*options, manifest=manifest, **streams)
        it.printed(1)
        if it.lines[0] != "fault: seated":
            return it
    raise AssertionError("a daemon that ended is still seated")


def ends_by_takeover(room, broker, daemon, *causes):
    """Shows that a daemon serves on at generation 1: another one takes over from it. Behind each takeover that came to
    nothing it says that it serves, unless it was offered the next one before. It told these causes alone."""
    new = room.take_over()
    broker.ends(["seat 1", "seat 2", f"answer 1 {ATTR_1}", "ended"])
    daemon.ends(["serving 1", "handed over"], may_repeat=True)
    same(daemon.said(), "".join(map(because, causes)))
    new.ends(["serving 2", "ended"])


def ends_by_claim(broker, daemon, cause):
    """Shows that a daemon claimed the seat again, and told this cause alone."""
    broker.ends(["seat 1", "seat 2", f"answer 1 {ATTR_1}", "ended"])
    daemon.ends(["serving 1", "serving 2", "ended"], may_repeat=True)
    same(daemon.said(), because(cause))


def offered(room, session=1, generation=1):
    """Offers, and returns a peer that was told that the daemon is ready."""
    it = room.peer(room.takeover_at)
    it.end.sendall(OFFER)
    same(it.read(), ("Choice", u32(session) + b"\x00\x01"))
    same(it.read(), ("Ready", u32(session) + u64(generation)))
    return it


def handed_over(room, session=1):
    """Gets the data of a takeover and claims nothing; the peer is closed. Returns session, generation and image."""
    it = offered(room, session)
    name, body = it.ask("Pong", u32(session))
    same(name, "Data")
    it.close()
    return body[:4], body[4:12], body[12:]


LONG_NAMES = [f"{number:03}" + "n" * 252 for number in range(300)]


def long_checkout(room, names=LONG_NAMES):
    """Writes a manifest of directories, each with a name of 255 bytes."""
    room.write("long", f"commit {'01' * 20}\n{''.join(f'dir {name}{chr(10)}' for name in names)}".encode())


def parts_of(room, session=1):
    """Gets the parts of an image, and claims nothing; the peer is closed."""
    it = room.peer(room.takeover_at)
    it.send("Offer", b"\x01\x00\x02")
    same(it.read(), ("Choice", u32(session) + b"\x00\x02"))
    name, body = it.read()
    same((name, body[:4]), ("Ready", u32(session)))
    it.send("Pong", u32(session))
    parts, count = [], 1
    while len(parts) < count:
        name, told = it.read()
        same((name, told[:12]), ("Part", body))
        position, count = struct.unpack(">II", told[12:20])
        same(position, len(parts) + 1)
        parts.append(told[20:])
    it.close()
    same([len(text) for text in parts[:-1]], [PART] * (count - 1))
    same(0 < len(parts[-1]) <= PART, True)
    return parts


def mounted_by_hand(room, *options, **streams):
    """Lets a daemon with one worker mount at a peer. Returns the daemon, and both connections: its Take is asked."""
    listener = room.listen(room.broker_at)
    daemon = room.mount("--workers", "1", *options, **streams)
    first = room.accept(listener)
    same(first.read(), ("Attach", u64(0)))
    first.send("Attached", u64(1))
    worker = room.accept(listener)
    same(worker.read(), ("Attach", u64(1)))
    worker.send("Attached", u64(1))
    same(first.read()[0], "Mount")
    first.send("Mounted", u64(1))
    same(worker.read(), ("Take", u64(1)))
    return daemon, first, worker
