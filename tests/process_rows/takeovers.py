"""Rows: takeovers one behind another."""
import os
import stat
import subprocess
import threading

from process_rows.checks import TOP, WAIT, row, same
from process_rows.daemons import GIVEN_UP, LONG_NAMES, OTHER, because, long_checkout, parts_of
from process_rows.frames import OFFER, VERSIONS_WITH_COMMIT, u32, u64
from process_rows.kernel import Client, Kernel, await_answers
from process_rows.proxies import Proxy
from process_rows.rooms import ATTR_1, ENTRY, OTHER_LINES, OTHER_MANIFEST, run_to_end


def row_of_processes(room, workers):
    """A daemon mounts, another one takes over, and the kernel goes on."""
    broker = room.broker(
        "seat 1", "ask lookup 1 src", "ask lookup 1 src", "seat 2", "forget 2 1", "idle", "ask getattr 2", "held"
    )
    first = room.mount("--workers", str(workers))
    broker.printed(3)
    second = room.take_over("--workers", str(workers))
    broker.ends([
        "seat 1", f"answer 1 {ENTRY}", f"answer 2 {ENTRY}", "seat 2", "asked", "idle",
        "answer 3 attr 2 dir 0755 0 2", "held 2 1", "ended",
    ])
    first.ends(["serving 1", "handed over"])
    second.ends(["serving 2", "ended"])


@row
def row_of_processes_with_1_worker(room):
    """The row of processes, with one worker."""
    row_of_processes(room, 1)


@row
def row_of_processes_with_2_workers(room):
    """The row of processes, with two workers."""
    row_of_processes(room, 2)


@row
def row_of_processes_with_16_workers(room):
    """The row of processes, with sixteen workers."""
    row_of_processes(room, 16)


def watch_path(path, seen, stop):
    """Notes whether a path lacks a socket at some moment, and whether its mode is another."""
    while not stop.is_set():
        try:
            found = os.lstat(path)
            if not stat.S_ISSOCK(found.st_mode) or stat.S_IMODE(found.st_mode) != 0o600:
                seen.append(oct(found.st_mode))
        except FileNotFoundError:
            seen.append("none")


@row
def five_takeovers_while_the_kernel_asks(room):
    """Five takeovers behind one another while the kernel asks; the socket's path always has a private socket."""
    block = ["ask lookup 1 src", "ask getattr 2", "ask getattr 1"] * 60
    script = ["seat 1"]
    for generation in range(2, 7):
        script += [*block, f"seat {generation}"]
    broker = room.broker(*script, *block, "held")
    daemons = [room.mount("--workers", "4")]
    daemons[0].printed("serving 1")
    seen, stop = [], threading.Event()
    watcher = threading.Thread(target=watch_path, args=(room.takeover_at, seen, stop))
    watcher.start()
    for generation in range(2, 7):
        broker.printed(len(block) * (generation - 2) + generation)
        daemons.append(room.take_over("--workers", "4"))
        daemons[-1].printed(f"serving {generation}")
    wanted, unique = ["seat 1"], 0
    for generation in range(2, 8):
        for line in block:
            unique += 1
            kind = {"ask lookup 1 src": ENTRY, "ask getattr 2": "attr 2 dir 0755 0 2", "ask getattr 1": ATTR_1}[line]
            wanted.append(f"answer {unique} {kind}")
        wanted.append(f"seat {generation}" if generation < 7 else "held 2 360")
    broker.ends([*wanted, "ended"])
    stop.set()
    watcher.join()
    same(seen, [])
    for number, daemon in enumerate(daemons, 1):
        daemon.ends([f"serving {number}", "ended" if number == 6 else "handed over"])


@row
def five_takeovers_under_four_clients(room):
    """Five takeovers behind one another under four clients' asks: each gets each answer, and a file keeps its number."""
    kernel = Kernel(room)
    daemons = [room.mount("--workers", "4")]
    daemons[0].printed("serving 1")
    clients = [Client(kernel) for _ in range(4)]
    for generation in range(2, 7):
        await_answers(clients, generation - 1)
        daemons.append(room.take_over("--workers", "4"))
        daemons[-1].printed(f"serving {generation}")
    await_answers(clients, 6)
    for client in clients:
        client.stops = True
    for client in clients:
        client.join(WAIT)
        same(client.wrong, None)
        same(client.generations, {1, 2, 3, 4, 5, 6})
        same(client.numbers, clients[0].numbers)
    # One that handed over asks whether the seat went on, and is told so only while the mount is not over.
    for number, daemon in enumerate(daemons[:-1], 1):
        daemon.ends([f"serving {number}", "handed over"])
    with kernel.lock:
        kernel.is_over = True
    daemons[-1].ends(["serving 6", "ended"])


@row
def an_image_of_many_parts_is_taken_over(room):
    """An image that is too long for one message goes to a second daemon and to a third, and no number is lost."""
    long_checkout(room)
    asks = [f"ask lookup 1 {name}" for name in LONG_NAMES]
    last = f"ask getattr {len(asks) + 1}"
    broker = room.broker("seat 1", *asks, "seat 2", last, "seat 3", "ask lookup 1 " + LONG_NAMES[-1], last)
    daemons = [room.mount(manifest="long")]
    for seat, lines in enumerate((1 + len(asks), 3 + len(asks)), 2):
        broker.printed(lines)
        daemons.append(room.take_over(manifest="long"))
        daemons[-1].printed(f"serving {seat}")
    entry, attr = (f"{kind} {len(asks) + 1} dir 0755 0 2" for kind in ("entry", "attr"))
    first = len(asks) + 1
    broker.ends([
        "seat 1", *(f"answer {number} entry {number + 1} dir 0755 0 2" for number in range(1, first)),
        "seat 2", f"answer {first} {attr}", "seat 3", f"answer {first + 1} {entry}", f"answer {first + 2} {attr}",
        "ended",
    ])
    for number, daemon in enumerate(daemons, 1):
        daemon.ends([f"serving {number}", "ended" if number == 3 else "handed over"])


@row
def an_image_is_the_same_whole_and_in_parts(room):
    """A peer that has version 2 alone gets the image in parts, and one of version 1 the same whole."""
    long_checkout(room)
    broker = room.broker("seat 1", *(f"ask lookup 1 {name}" for name in LONG_NAMES[:20]), "seat 2", "seat 3")
    daemon = room.mount(manifest="long")
    broker.printed(21)
    parts = parts_of(room)
    daemon.printed("serving 2")
    it = room.peer(room.takeover_at)
    it.end.sendall(OFFER)
    same(it.read(), ("Choice", u32(2) + b"\x00\x01"))
    same(it.read(), ("Ready", u32(2) + u64(2)))
    name, body = it.ask("Pong", u32(2))
    same(name, "Data")
    it.close()
    whole, joined = body[12:], b"".join(parts)
    same(len(parts), 2)
    same(len(joined), len(whole))
    same(joined[-5000:], whole[-5000:])
    daemon.printed("serving 3")
    same((broker.ending(), daemon.ending()), (("ended", 0), ("ended", 0)))


@row
def another_manifest_takes_nothing_over(room):
    """A daemon over another commit fails to take over, and the first one claims the seat again."""
    broker = room.broker("seat 1", "ask lookup 1 src", "seat 2", "ask lookup 1 src", "held")
    first = room.mount()
    broker.printed(2)
    room.write("other", OTHER_MANIFEST)
    room.take_over(manifest="other").ends(["fault: takeover failed"], 1, error=because(OTHER))
    broker.ends(["seat 1", f"answer 1 {ENTRY}", "seat 2", f"answer 2 {ENTRY}", "held 2 2", "ended"])
    first.ends(["serving 1", "serving 2", "ended"], error=because(GIVEN_UP))


FILE = "entry 3 file 0644 12 1"


@row
def other_lines_of_one_commit_take_nothing_over(room):
    """A daemon over the same commit with other lines fails to take over, and the first one answers as it did before."""
    asks = "ask lookup 1 src", "ask lookup 2 a"
    broker = room.broker("seat 1", *asks, "seat 2", "ask getattr 3", "held")
    first = room.mount()
    broker.printed(3)
    room.write("other", OTHER_LINES)
    room.take_over(manifest="other").ends(["fault: takeover failed"], 1, error=because(OTHER))
    answers = [f"answer 1 {ENTRY}", f"answer 2 {FILE}", "seat 2", "answer 3 attr 3 file 0644 12 1"]
    broker.ends(["seat 1", *answers, "held 2 1", "held 3 1", "ended"])
    first.ends(["serving 1", "serving 2", "ended"], error=because(GIVEN_UP))


class OfRelease(Proxy):
    """A connection by which a daemon offers what it did before images named the text of a manifest."""

    def passes(self, name, body):
        return VERSIONS_WITH_COMMIT if name == "Offer" else body


@row
def a_release_before_digests_compares_commits(room):
    """A daemon that offers version 3 at most takes over by the commit alone, also where its manifest has other lines."""
    broker = room.broker("seat 1", "ask lookup 1 src", "ask lookup 2 a", "seat 2", "ask lookup 1 src", "held")
    first = room.mount()
    broker.printed(3)
    os.rename(room.takeover_at, f"{room.path}/first.sock")
    proxy = OfRelease(room, room.takeover_at, f"{room.path}/first.sock", 1 << 30, None, False)
    proxy.may_begin.set()
    room.write("other", OTHER_LINES)
    second = room.take_over(manifest="other")
    second.printed("serving 2")
    first.ends(["serving 1", "handed over"])
    answers = [f"answer 1 {ENTRY}", f"answer 2 {FILE}", "seat 2", f"answer 3 {ENTRY}"]
    broker.ends(["seat 1", *answers, "held 2 2", "held 3 1", "ended"])
    second.ends(["serving 2", "ended"])
    same(proxy.wrong, None)


@row
def the_example_of_an_upgrade(room):
    """examples/upgrade.sh prints what a broker, a daemon and the next one say."""
    words = [f"{TOP}/examples/upgrade.sh", room.program]
    status, printed = run_to_end(words, stdout=subprocess.PIPE, cwd=room.path)
    same(printed.decode().splitlines(), [
        "broker: seat 1", f"broker: answer 1 {ENTRY}", "broker: seat 2", "broker: answer 2 attr 2 dir 0755 0 2",
        "broker: held 2 1", "broker: ended", "old: serving 1", "old: handed over", "new: serving 2", "new: ended",
    ])
    same(status, 0)
