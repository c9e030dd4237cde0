"""Rows: crowds at a daemon's socket, among which another daemon comes to take over."""
import itertools
import os
import random
import signal
import socket
import threading
import time

from process_rows.checks import WAIT, TooSlow, row, same
from process_rows.rooms import allow_many_files

CROWD = 2000
# A program without a proof takes milliseconds for each connection.
CROWD_OF_UNPROVED = 500
UPGRADES, UPGRADES_OF_UNPROVED = 18, 3
# The patience of two seconds, which a daemon has by itself. A program without a proof may take them for what waits in
# the system's queue.
PATIENCE, PATIENCE_OF_UNPROVED = None, "60000"


def size_of_crowd(room):
    return CROWD if room.is_proved else CROWD_OF_UNPROVED


def connected(path):
    end = socket.socket(socket.AF_UNIX, socket.SOCK_STREAM)
    end.settimeout(WAIT)
    end.connect(path)
    return end


def behind_a_crowd(room, comes):
    """Shows that a new daemon is through within its patience, which is two seconds, behind a crowd of connections that
    came while the old one stood still. `comes` makes one of them, and returns it where it is to stay open."""
    allow_many_files()
    patience = PATIENCE if room.is_proved else PATIENCE_OF_UNPROVED
    broker = room.broker("seat 1", "seat 2")
    old = room.mount(patience=patience)
    old.printed("serving 1")
    os.kill(old.pid, signal.SIGSTOP)
    open_ends = [end for number in range(size_of_crowd(room)) if (end := comes(room.takeover_at, number))]
    new = room.take_over(patience=patience)
    until_reached(new, room)
    os.kill(old.pid, signal.SIGCONT)
    broker.ends(["seat 1", "seat 2", "ended"])
    new.ends(["serving 2", "ended"])
    old.ends(["serving 1", "handed over"])
    for end in open_ends:
        end.close()


def until_reached(new, room):
    """Waits until a new daemon has made its socket, which it does before it reaches the old one."""
    until = time.monotonic() + WAIT
    while not any(name.startswith("takeover.sock.") for name in os.listdir(room.path)):
        if time.monotonic() > until or not new.is_running():
            raise TooSlow("a new daemon makes no socket")
        time.sleep(0.001)


@row
def an_upgrade_behind_2000_open_connections(room):
    """A daemon takes over behind 2,000 connections that are open and say nothing."""
    behind_a_crowd(room, lambda path, number: connected(path))


@row
def an_upgrade_behind_2000_closed_connections(room):
    """A daemon takes over behind 2,000 connections that were closed before the old daemon looked at them."""

    def comes(path, number):
        connected(path).close()

    behind_a_crowd(room, comes)


@row
def an_upgrade_behind_2000_connections_of_garbage(room):
    """A daemon takes over behind 2,000 connections that sent random bytes or half a frame, and stay open."""

    def comes(path, number):
        end = connected(path)
        end.sendall(random.Random(number).randbytes(100) if number % 2 else b"\0\0\0\x28\x20half")
        return end

    behind_a_crowd(room, comes)


class Flood:
    """Threads that connect to a socket again and again: they stay a moment, send garbage, or close at once."""

    def __init__(self, path):
        self.path, self.is_over = path, threading.Event()
        self.threads = [threading.Thread(target=self.run, args=(number,), daemon=True) for number in range(3)]
        for it in self.threads:
            it.start()

    def run(self, number):
        chance, held = random.Random(number), []
        for count in itertools.count():
            if self.is_over.is_set():
                break
            try:
                end = connected(self.path)
                if number == 1:
                    end.sendall(chance.randbytes(50))
            except OSError:
                time.sleep(0.001)
                continue
            if number == 2:
                end.close()
            else:
                held.append(end)
            if len(held) > 200:
                held.pop(0).close()
            if count % 100 == 0:
                time.sleep(0.002)
        for end in held:
            end.close()

    def end(self):
        self.is_over.set()
        for it in self.threads:
            it.join(WAIT)


@row
def eighteen_upgrades_below_a_flood(room):
    """Daemons take over eighteen times from one another, each of a patience of two seconds, while three threads connect
    to their socket as often as they can."""
    count, patience = (UPGRADES, PATIENCE) if room.is_proved else (UPGRADES_OF_UNPROVED, PATIENCE_OF_UNPROVED)
    allow_many_files()
    broker = room.broker(*(f"seat {number}" for number in range(1, count + 2)))
    old = room.mount(patience=patience)
    old.printed("serving 1")
    flood = Flood(room.takeover_at)
    try:
        for generation in range(2, count + 2):
            new = room.take_over(patience=patience)
            new.printed(1)
            same(new.lines[:1], [f"serving {generation}"])
            same(old.ending(), ("handed over", 0))
            old = new
    finally:
        flood.end()
    broker.ends([*(f"seat {number}" for number in range(1, count + 2)), "ended"])
    old.ends([f"serving {count + 1}", "ended"])


@row
def offers_wait_their_turn(room):
    """Of peers that offer one behind another each is conversed with in its turn, and one that offers nothing holds up
    nobody."""
    broker = room.broker("seat 1", "seat 4")
    daemon = room.mount()
    daemon.printed("serving 1")
    silent = room.peer(room.takeover_at)
    peers = []
    for _ in range(3):
        it = room.peer(room.takeover_at)
        it.send("Offer", b"\x01\x00\x01")
        peers.append(it)
        time.sleep(0.1)
    for session, it in enumerate(peers, 1):
        number = bytes([0, 0, 0, session])
        same(it.read(), ("Choice", number + b"\x00\x01"))
        same(it.read(), ("Ready", number + bytes(7) + bytes([session])))
        same(it.ask("Pong", number)[0], "Data")
        it.close()
    broker.ends(["seat 1", "seat 4", "ended"])
    same(daemon.ending(), ("ended", 0))
    same(silent.is_closed(), True)
