"""Rows: daemons that are killed, and what is known behind that."""
from process_rows.checks import row, same
from process_rows.daemons import handed_over, mounted_anew, offered, serving
from process_rows.frames import OFFER, u32, u64
from process_rows.rooms import ATTR_1, ENTRY, run_to_end


@row
def a_killed_daemon_loses_what_was_asked(room):
    """What was asked is lost where the daemon is killed, and the next one mounts at the next generation."""
    broker = room.broker("seat 1", "ask lookup 1 src", "seat 2", "ask getattr 1", "ask lookup 1 src", "held")
    first = room.peer()
    first.attach()
    same(first.ask("Mount"), ("Mounted", u64(1)))
    same(first.take_ask(1)[0], "Ask")
    first.close()
    broker.printed("lost 1")
    second = room.mount()
    broker.ends(["seat 1", "lost 1", "seat 2", f"answer 2 {ATTR_1}", f"answer 3 {ENTRY}", "held 2 1", "ended"])
    second.ends(["serving 2", "ended"])


@row
def a_daemon_that_is_killed_leaves_the_mount(room):
    """The mount is over where the daemon of the seat is killed: what the kernel held is gone."""
    broker = room.broker("seat 1", "ask lookup 1 src", "seat 2", "ask getattr 2", "ask lookup 1 src")
    first = room.mount("--workers", "4")
    broker.printed(2)
    first.kill()
    second = room.mount("--workers", "4")
    broker.ends(["seat 1", f"answer 1 {ENTRY}", "seat 2", "refused NotHeld", f"answer 2 {ENTRY}", "ended"])
    second.ends(["serving 2", "ended"])


@row
def a_daemon_that_sh_kills_is_followed_by_another(room):
    """A daemon is killed by `sh`, and another one mounts: the kernel holds nothing, and goes on at the next generation."""
    broker = room.broker("seat 1", "ask lookup 1 src", "seat 2", "held", "ask getattr 1")
    first = room.mount()
    first.printed("serving 1")
    broker.printed(2)
    same(run_to_end(["sh", "-c", f"kill -9 {first.pid}"])[0], 0)
    second = mounted_anew(room)
    broker.ends(["seat 1", f"answer 1 {ENTRY}", "seat 2", f"answer 2 {ATTR_1}", "ended"])
    first.ends(["serving 1"], -9)
    second.ends(["serving 2", "ended"])


# The image of a checkout whose directory `src` was looked up once, at generation 1: 87 bytes.
IMAGE = bytes.fromhex(
    "4544544b00010123456789abcdef0123456789abcdef01234567"
    "000000000000000100000000000000030000000000000006"
    "00000001"
    "00000000000000020000000001000000000000000103737263"
    "0000000000000000"
)


@row
def three_peers_that_close_take_nothing(room):
    """Peers that close behind Choice, behind Ready and behind the data take nothing: the daemon says three times that it
    serves at generation 1, and then at generation 2."""
    broker = room.broker("seat 1", "ask lookup 1 src", "seat 2", "ask lookup 1 src")
    daemon = room.mount()
    broker.printed(2)
    first = room.peer(room.takeover_at)
    first.end.sendall(OFFER)
    same(first.read(), ("Choice", u32(1) + b"\x00\x01"))
    first.close()
    daemon.printed(2)
    offered(room, 2).close()
    daemon.printed(3)
    same(handed_over(room, 3), (u32(3), u64(1), IMAGE))
    broker.ends(["seat 1", f"answer 1 {ENTRY}", "seat 2", f"answer 2 {ENTRY}", "ended"])
    daemon.ends(["serving 1", "serving 1", "serving 1", "serving 2", "ended"])


def handed_over_and_killed(room, daemon):
    """Gets the data of a takeover, and kills the daemon that hands over."""
    it = offered(room)
    name, body = it.ask("Pong", u32(1))
    same(name, "Data")
    daemon.kill()
    return body[12:]


@row
def a_daemon_that_died_behind_the_data_is_succeeded(room):
    """Where the old daemon is killed behind its data, the new one's claim is answered Ended, and the mount is over."""
    broker, daemon = serving(room, script=("seat 1", "seat 2"))
    image = handed_over_and_killed(room, daemon)
    listener = room.listen(f"{room.path}/other.sock")
    new = room.run("daemon", "--takeover", "broker.sock", "other.sock", "m")
    other = room.accept(listener)
    other.read()
    other.send("Choice", u32(1) + b"\x00\x01")
    same(other.ask("Ready", u32(1) + u64(1)), ("Pong", u32(1)))
    other.send("Data", u32(1) + u64(1) + image)
    new.ends(["ended"])
    third = room.mount()
    broker.ends(["seat 1", "seat 2", "ended"])
    third.ends(["serving 2", "ended"])
