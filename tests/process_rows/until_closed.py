"""Rows: daemons that are to run until their standard input ends."""
import os
import subprocess
import threading
import time

from process_rows.checks import WAIT, row, same, took_between
from process_rows.counts import check_lines
from process_rows.daemons import mounted_anew, offered
from process_rows.frames import ALL_VERSIONS, u32, u64
from process_rows.kernel import Client, Kernel, await_answers
from process_rows.rooms import ATTR_1, ENTRY, run_to_end

UNTIL_CLOSED = {"stdin": subprocess.PIPE}
FILES = {"src": "dir 0755 0 2"}
BLOCK = ("ask lookup 1 src", "ask getattr 2", "ask getattr 1", "forget 2 1")


def mounted(room, *options):
    """Starts a daemon that is to run until its standard input ends."""
    return room.mount("--until-closed", *options, **UNTIL_CLOSED)


def taking_over(room, *options):
    """Starts a daemon that is to take over, and to run until its standard input ends."""
    return room.take_over("--until-closed", *options, **UNTIL_CLOSED)


def ends_within_a_second(room, daemon, lines, others=0):
    """Ends a daemon's standard input, and shows that it ends within a second. It may take longer where it isn't proved,
    and `others` seconds more under load."""
    began = time.monotonic()
    daemon.child.stdin.close()
    daemon.ends(lines)
    took_between(0, time.monotonic() - began, (1 if room.is_proved else 3) + others, "it ended")


@row
def an_idle_daemon_is_closed(room):
    """A daemon ends with its standard input, whose bytes change nothing. The mount is over, and the next daemon mounts."""
    broker = room.broker("seat 1", "ask lookup 1 src", "seat 2", "ask getattr 2", "ask lookup 1 src")
    daemon = mounted(room)
    broker.printed(2)
    daemon.child.stdin.write(b"end\n" * 5000)
    daemon.child.stdin.flush()
    time.sleep(0.3)
    same(daemon.is_running(), True)
    ends_within_a_second(room, daemon, ["serving 1", "closed"])
    second = mounted_anew(room)
    broker.ends(["seat 1", f"answer 1 {ENTRY}", "seat 2", "refused NotHeld", f"answer 2 {ENTRY}", "ended"])
    second.ends(["serving 2", "ended"])


def closed_under_clients(room, workers):
    """Ends a daemon's standard input under clients that ask at a time: each ask that it took is answered, and rightly."""
    kernel = Kernel(room)
    daemon = mounted(room, "--workers", str(workers))
    clients = [Client(kernel) for _ in range(max(workers, 4))]
    await_answers(clients, 1)
    # The kernel, which is written in Python, may be slow under so many.
    ends_within_a_second(room, daemon, ["serving 1", "closed"], others=8)
    with kernel.lock:
        same(kernel.lock.wait_for(lambda: len(kernel.waiting) == len(clients), WAIT), True)
        same((kernel.owed, [it.wrong for it in clients]), (set(), [None] * len(clients)))


def closed_under_a_broker(room, workers):
    """Ends a daemon's standard input while a broker's script asks: what is asked is answered rightly, or lost."""
    script = ["seat 1", *BLOCK * 60, "seat 2", *BLOCK * 5, "idle", "held"]
    broker = room.broker(*script)
    daemon = mounted(room, "--workers", str(workers))
    broker.printed(20)
    ends_within_a_second(room, daemon, ["serving 1", "closed"])
    second = mounted_anew(room, "--workers", str(workers))
    same(broker.ending(), ("ended", 0))
    check_lines(script, broker.lines, FILES, 1)
    second.ends(["serving 2", "ended"])


def closed_under_load(room, workers):
    for closes in (closed_under_clients, closed_under_a_broker):
        inner = room.inner()
        try:
            closes(inner, workers)
        finally:
            inner.clear()


@row
def a_daemon_of_1_worker_is_closed_under_load(room):
    """A daemon with one worker ends with its standard input under load: each ask is answered, or lost."""
    closed_under_load(room, 1)


@row
def a_daemon_of_2_workers_is_closed_under_load(room):
    """A daemon with two workers ends with its standard input under load: each ask is answered, or lost."""
    closed_under_load(room, 2)


@row
def a_daemon_of_16_workers_is_closed_under_load(room):
    """A daemon with sixteen workers ends with its standard input under load: each ask is answered, or lost."""
    closed_under_load(room, 16)


@row
def a_daemon_is_closed_before_it_is_attached(room):
    """A daemon whose broker doesn't answer its Attach, or its Mount, ends with its standard input."""
    listener = room.listen(room.broker_at)
    daemon = mounted(room, "--workers", "1")
    same(room.accept(listener).read(), ("Attach", u64(0)))
    ends_within_a_second(room, daemon, ["closed"])
    daemon = mounted(room, "--workers", "1")
    first = room.accept(listener)
    same(first.read(), ("Attach", u64(0)))
    first.send("Attached", u64(2))
    worker = room.accept(listener)
    same(worker.read(), ("Attach", u64(2)))
    worker.send("Attached", u64(2))
    same(first.read()[0], "Mount")
    ends_within_a_second(room, daemon, ["closed"])
    same([name for name in os.listdir(room.path) if name.startswith("takeover.sock")], [])


@row
def standard_input_may_have_ended_before(room):
    """A daemon whose standard input ended before, or is none or no file, ends at once, and others mount behind it."""
    broker = room.broker("seat 1", "seat 50")
    words = "daemon --until-closed --mount broker.sock takeover.sock"
    for stream in ("m </dev/null", "m <&-", "m </", "- <m"):
        script = f"exec {room.program} {words} {stream}"
        status, printed = run_to_end(["sh", "-c", script], stdout=subprocess.PIPE, cwd=room.path)
        same((status, printed.decode().splitlines()[-1:]), (0, ["closed"]))
    if os.path.lexists(room.takeover_at):
        os.remove(room.takeover_at)
    # somebody listens and answers nothing, since a daemon that finds nobody may tell that first
    room.listen(room.takeover_at)
    room.take_over("--until-closed", stdin=subprocess.DEVNULL).ends(["closed"])
    broker.kill()


@row
def a_closed_standard_input_changes_nothing_else(room):
    """A daemon that isn't to run until its standard input ends ignores its end, and one that is ends by itself too."""
    broker = room.broker("seat 1", "seat 2", "ask getattr 1")
    first = room.mount(**UNTIL_CLOSED)
    first.child.stdin.close()
    first.printed("serving 1")
    time.sleep(0.3)
    same(first.is_running(), True)
    second = taking_over(room)
    broker.ends(["seat 1", "seat 2", f"answer 1 {ATTR_1}", "ended"])
    first.ends(["serving 1", "handed over"])
    second.ends(["serving 2", "ended"])


def goes_on(daemon):
    """Ends a daemon's standard input in a takeover, and shows that it goes on."""
    daemon.child.stdin.close()
    time.sleep(0.3)
    same(daemon.is_running(), True)


def handed_to_a_peer(room, daemon, generation, is_out):
    """Lets a peer take the mount over from a daemon whose standard input ends in between: before the data is out, or
    behind it."""
    claimer = room.peer()
    claimer.attach()
    it = offered(room, 1, generation)
    if not is_out:
        goes_on(daemon)
    same(it.ask("Pong", u32(1))[0], "Data")
    if is_out:
        goes_on(daemon)
    same(claimer.ask("Claim", u64(generation)), ("Claimed", u64(generation + 1)))
    it.close()
    daemon.ends([f"serving {generation}", "handed over"])
    claimer.close()


@row
def a_takeover_from_a_closed_daemon_goes_to_its_end(room):
    """A daemon whose standard input ends in a takeover hands over, whether or not the data is out."""
    broker = room.broker("seat 1", "seat 3", "seat 5")
    first = mounted(room)
    first.printed("serving 1")
    handed_to_a_peer(room, first, 1, False)
    second = mounted_anew(room, "--until-closed", **UNTIL_CLOSED)
    handed_to_a_peer(room, second, 3, True)
    third = mounted_anew(room)
    broker.ends(["seat 1", "seat 3", "seat 5", "ended"])
    third.ends(["serving 5", "ended"])


@row
def a_closed_daemon_serves_no_more_behind_a_takeover(room):
    """A daemon whose standard input ends in a takeover that comes to nothing ends then, and the mount is over. Where its
    data was out it first claims the seat, and leaves it at once: the script may see that seat or not."""
    broker = room.broker("seat 1", "seat 2", "seat 4")
    first = mounted(room)
    first.printed("serving 1")
    it = offered(room)
    goes_on(first)
    it.close()
    first.ends(["serving 1", "closed"])
    second = mounted_anew(room, "--until-closed", **UNTIL_CLOSED)
    it = offered(room, 1, 2)
    same(it.ask("Pong", u32(1))[0], "Data")
    goes_on(second)
    it.close()
    second.ends(["serving 2", "closed"])
    third = mounted_anew(room)
    broker.ends(["seat 1", "seat 2", "seat 4", "ended"])
    third.ends(["serving 4", "ended"])


@row
def a_new_daemon_is_closed_before_its_data_comes(room):
    """A new daemon whose standard input ends in its takeover ends at once, and leaves the mount to the other one."""
    listener = room.listen(room.takeover_at)
    room.broker("seat 1")
    for says in range(3):
        new = taking_over(room)
        other = room.accept(listener)
        same(other.read(), ("Offer", ALL_VERSIONS))
        if says > 0:
            other.send("Choice", u32(1) + b"\x00\x01")
        if says > 1:
            same(other.ask("Ready", u32(1) + u64(1)), ("Pong", u32(1)))
        ends_within_a_second(room, new, ["closed"])
        same(other.is_closed(), True)
