"""Rows: what the words of a process mean, by what it does."""
import os
import subprocess

from process_rows.checks import row, same
from process_rows.frames import u64
from process_rows.rooms import ATTR_1, MANIFEST, STARTING


def given(running, text):
    """Gives a process its standard input, to its end."""
    running.child.stdin.write(text)
    running.child.stdin.close()


def attached(room, path, workers, start):
    """Starts a daemon, and takes its connections at a path in a broker's place: the first one, one for each worker, and
    no more. Returns the daemon and its first connection."""
    listener = room.listen(path)
    daemon, first = start(), room.accept(listener)
    same(first.read(), ("Attach", u64(0)))
    first.send("Attached", u64(1))
    for _ in range(workers):
        worker = room.accept(listener)
        same(worker.read(), ("Attach", u64(1)))
        worker.send("Attached", u64(1))
    listener.settimeout(0.5)
    try:
        room.accept(listener)
    except TimeoutError:
        return daemon, first
    raise AssertionError(f"more than {workers} workers attached")


@row
def a_brokers_script_may_be_standard_input(room):
    """A broker whose script is - plays the lines of its standard input, at the socket that its words name."""
    it = room.run("broker", "s", "-", stdin=subprocess.PIPE)
    given(it, b"idle\nseat 1\n")
    it.printed("idle")
    room.await_socket(f"{room.path}/s")
    peer = room.peer(f"{room.path}/s")
    peer.attach()
    same(peer.ask("Mount"), ("Mounted", u64(1)))
    it.printed("ended")
    peer.close()
    it.ends(["idle", "seat 1", "ended"])


@row
def a_daemon_has_two_workers(room):
    """A daemon whose words name no number of workers has two, by --mount as by --takeover."""
    for how, goes_on in (("--mount", "Mount"), ("--takeover", "Offer")):
        inner = room.inner()
        other = inner.listen(f"{inner.path}/t")
        words = ["daemon", how, "b", "t", "m"]
        _daemon, first = attached(inner, f"{inner.path}/b", 2, lambda: inner.run(*words))
        same((first if how == "--mount" else inner.accept(other)).read()[0], goes_on)
        inner.clear()


@row
def words_of_a_daemon_come_in_any_order(room):
    """Options may stand between a daemon's words and behind them: each has its effect."""
    words = ["daemon", "b", "--workers", "16", "t", "--limit=65536", "m", "--patience", "600000"]
    words += ["--until-closed", "--mount"]
    daemon, first = attached(room, f"{room.path}/b", 16, lambda: room.run(*words, stdin=subprocess.PIPE))
    same(first.read(), ("Mount", b""))
    same(os.path.exists(f"{room.path}/t"), False)
    daemon.child.stdin.close()
    daemon.ends(["closed"])


@row
def a_manifest_may_be_standard_input(room):
    """A daemon may have its manifest from standard input, a patience of a millisecond, and a number with a sign."""
    words = ["daemon", "--takeover", "--workers", "+1", "--limit", "1", "--patience", "1", "b", "t", "-"]
    other = room.listen(f"{room.path}/t")

    def start():
        it = room.run(*words, stdin=subprocess.PIPE)
        given(it, MANIFEST)
        return it

    daemon, _first = attached(room, f"{room.path}/b", 1, start)
    same(room.accept(other).read()[0], "Offer")
    daemon.ends(["fault: takeover failed"], 1)


@row
def a_manifest_from_standard_input_is_served(room):
    """What a daemon serves whose manifest is - is that of its standard input."""
    broker = room.broker("seat 1", "ask lookup 1 src", "ask getattr 1")
    daemon = room.mount(manifest="-", stdin=subprocess.PIPE)
    given(daemon, MANIFEST)
    broker.ends(["seat 1", "answer 1 entry 2 dir 0755 0 2", f"answer 2 {ATTR_1}", "ended"])
    daemon.ends(["serving 1", "ended"])


@row
def a_terminal_is_told_that_a_script_is_read(room):
    """Without a word the program says that it reads a script from standard input, if that is a terminal."""
    keys, terminal = os.openpty()
    it = room.run(stdin=terminal)
    os.write(keys, b"\x04")
    it.ends(["fault: no events"], 1, "edend: reads a script from standard input, to its end\n")
    with STARTING:
        os.close(keys)
        os.close(terminal)
    silent = room.run()
    silent.ends(["fault: no events"], 1)
    same(silent.said(), "")
