"""Rows: hostile peers at a daemon's socket and at a broker's. While they last the kernel is served, and each costs a
thread at most, and a megabyte."""
import random
import struct
import threading
import time

from process_rows.checks import WAIT, TooSlow, row, same
from process_rows.frames import KINDS, OFFER, frame, u32, u64
from process_rows.kernel import Client, Kernel
from process_rows.rooms import allow_many_files

MEGABYTE = 1024


class Cost:
    """How many threads and kilobytes a process has at most, while it is watched. Peers are counted beyond what it has at
    first, within FIRST seconds."""

    FIRST = 0.3

    def __init__(self, running, room):
        self.running, self.is_proved = running, room.is_proved
        self.most_threads, self.most_kilobytes = self.seen()
        self.is_over = threading.Event()
        self.thread = threading.Thread(target=self.watch, daemon=True)
        self.thread.start()
        time.sleep(self.FIRST)
        self.threads, self.kilobytes = self.most_threads, self.most_kilobytes

    def seen(self):
        with open(f"/proc/{self.running.pid}/status") as status:
            said = dict(line.split(":", 1) for line in status if ":" in line)
        return int(said["Threads"]), int(said["VmRSS"].split()[0])

    def watch(self):
        while not self.is_over.wait(0.002):
            try:
                threads, kilobytes = self.seen()
            except (OSError, KeyError):
                return
            self.most_threads = max(self.most_threads, threads)
            self.most_kilobytes = max(self.most_kilobytes, kilobytes)

    def is_at_most(self, peers):
        """Fails where peers cost more than a thread and a megabyte each. The allocator of a program without a proof
        keeps what was freed, so of such a one threads alone count."""
        self.is_over.set()
        self.thread.join(WAIT)
        threads, kilobytes = self.most_threads - self.threads, self.most_kilobytes - self.kilobytes
        if threads > peers or self.is_proved and kilobytes > peers * MEGABYTE:
            raise AssertionError(f"{peers} peers cost {threads} threads and {kilobytes} kB")


def sent(room, path, text):
    """Connects and sends a text, as far as the other end takes it. Returns the peer."""
    it = room.peer(path)
    it.end.settimeout(0.3)
    try:
        it.end.sendall(text)
    except (TimeoutError, BrokenPipeError, ConnectionResetError):
        pass
    return it


# ---- what hostile peers do: each returns its open connections


def random_bytes(room, path, before):
    """Ten streams of random bytes."""
    return [sent(room, path, before + random.Random(seed).randbytes(100_000)) for seed in range(10)]


def frames_in_any_order(room, path, before):
    """Twenty streams of frames that somebody sends somewhere, of sessions and generations of all kinds."""
    return [sent(room, path, before + some_frames(random.Random(seed))) for seed in range(20)]


def some_frames(chance):
    """Returns two hundred frames in any order. None claims from, or takes at, a generation that is near."""
    session, generation = (lambda: u32(chance.randrange(4))), (lambda: u64(chance.choice((0, 1 << 40, (1 << 64) - 1))))
    bodies = {
        "Take": generation, "Claim": generation, "Post": lambda: generation() + bytes(16), "Ask": lambda: bytes(40),
        "Offer": lambda: b"\x01" + u32(chance.randrange(4))[2:], "Choice": lambda: session() + b"\x00\x01",
        "Ready": lambda: session() + generation(), "Pong": session, "Failed": session,
        "Data": lambda: session() + generation() + chance.randbytes(87),
        "Part": lambda: session() + generation() + u32(1) + u32(chance.randrange(3)) + chance.randbytes(87),
    }
    names = [chance.choice([*bodies, *bodies, "NoCommon", "Busy", "Seated"]) for _ in range(200)]
    return b"".join(frame(name, bodies[name]() if name in bodies else b"") for name in names)


def zeros(room, path, before):
    """A longest frame of zeros of each kind, and zeros alone."""
    # A program without a proof takes a second for some of them, and gets four.
    kinds = [kind for kind in KINDS if room.is_proved or KINDS[kind] in ("Ask", "Offer", "Data", "Part")]
    frames = [u32(65536) + bytes([kind]) + bytes(65536) for kind in kinds]
    return [sent(room, path, before + text) for text in (*frames, bytes(65536))]


def half_a_frame(room, path, before):
    """Half of each kind of frame, and then silence."""
    return [sent(room, path, before + u32(40) + bytes([kind]) + bytes(20)) for kind in KINDS]


def a_thousand_at_once(room, path, before):
    """A thousand connections, which say nothing more."""
    # A program without a proof takes twenty milliseconds for each connection, and gets fifty.
    return [sent(room, path, before) for _ in range(1000 if room.is_proved else 50)]


def one_that_never_reads(room, path, before):
    """A connection that sends what is answered, and reads nothing."""
    question = OFFER if path == room.takeover_at else frame("Take", u64(1 << 40))
    return [sent(room, path, before + question * 400_000)]


ACTS = (
    random_bytes, frames_in_any_order, zeros, half_a_frame, a_thousand_at_once, one_that_never_reads,
)


def act_on_daemon(room, act):
    """Lets hostile peers act on a daemon while a client's asks are answered rightly. Then another daemon takes over."""
    allow_many_files()
    kernel = Kernel(room)
    daemon = room.mount("--workers", "2", patience="3000")
    daemon.printed("serving 1")
    client = Client(kernel)
    await_asks(kernel, 20)
    cost = Cost(daemon, room)
    peers = act(room, room.takeover_at, b"")
    await_asks(kernel, 100)
    cost.is_at_most(len(peers))
    for it in peers:
        it.close()
    new = room.take_over()
    new.printed(1)
    await_asks(kernel, 20)
    client.stops = True
    client.join(WAIT)
    same(client.wrong, None)
    same(daemon.ending(), ("handed over", 0))
    with kernel.lock:
        kernel.is_over = True
    same(new.ending(), ("ended", 0))


def await_asks(kernel, more):
    """Waits until the kernel asked more often."""
    with kernel.lock:
        wanted = kernel.unique + more
        if not kernel.lock.wait_for(lambda: kernel.unique >= wanted, WAIT):
            raise TooSlow(f"the kernel asked {kernel.unique} times, and not {wanted}")


def act_on_broker(room, act, is_attached):
    """Lets hostile peers act on a broker, unattached or as daemons, while its script's asks are answered."""
    allow_many_files()
    asks = 40
    broker = room.broker("seat 1", *["ask getattr 1"] * asks)
    first, worker = room.peer(), room.peer()
    worker.attach(first.attach())
    same(first.ask("Mount"), ("Mounted", u64(1)))
    cost = Cost(broker, room)
    peers = act(room, room.broker_at, frame("Attach", u64(0)) if is_attached else b"")
    for unique in range(1, asks + 1):
        same(worker.take_ask(1)[0], "Ask")
        same(worker.ask("Post", u64(1) + struct.pack("<IiQ", 16, -5, unique)), ("Posted", b""))
    broker.printed(1 + asks)
    cost.is_at_most(len(peers))
    for it in peers:
        it.close()
    broker.printed("ended")
    first.close()
    broker.ends(["seat 1", *(f"answer {unique} error EIO" for unique in range(1, asks + 1)), "ended"])


def rows_of(act):
    """Lists an act as rows."""
    what = act.__doc__[0].lower() + act.__doc__[1:-1]

    def on_daemon(room):
        act_on_daemon(room, act)

    def on_broker(room):
        act_on_broker(room.inner(), act, False)
        act_on_broker(room.inner(), act, True)

    for shows, whom in ((on_daemon, "daemon"), (on_broker, "broker")):
        shows.__name__ = f"hostile_{act.__name__}_at_a_{whom}"
        shows.__doc__ = f"At a {whom}'s socket: {what}. It serves on, and each peer costs a thread and a megabyte at most."
        row(shows)


for it in ACTS:
    rows_of(it)
