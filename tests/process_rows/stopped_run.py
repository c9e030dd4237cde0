"""Upgrades of one real mount below programs that work in it, while broker and daemons are stopped at random."""
import collections
import os
import random
import signal
import threading
import time

from process_rows.checks import WAIT, same
from process_rows.mounted_programs import programs_of
from process_rows.mounts import Mount, all_end, drop_caches, until

LONGEST = 20
# How long processes stand still, and how often: a share of stops, with the least and the most of seconds.
STOPS = ((0.90, 0, 0.5), (0.08, 0.5, 5), (0.02, 5, LONGEST))
# How long a takeover may last before processes are stopped, in seconds.
DELAY = 0.2


class StoppedRun:
    """A mount that is taken over from daemon to daemon, by attempts of which some fail: a frozen daemon is given up."""

    def __init__(self, room, seed=1):
        room.timer.cancel()
        self.room, self.chance = room, random.Random(seed)
        self.mount = Mount(room, "--patience", "2000", "--workers", "4")
        self.programs = programs_of(room)
        self.outcomes = collections.Counter()
        self.stood_still = 0

    def length(self):
        """Returns for how many seconds processes stand still."""
        drawn = self.chance.random()
        for share, least, most in STOPS:
            if drawn < share:
                return self.chance.uniform(least, most)
            drawn -= share
        return LONGEST

    def stop(self, processes):
        """Stops processes at a random moment for a random time."""
        time.sleep(self.chance.uniform(0, DELAY))
        length = self.length()
        self.chance.shuffle(processes)
        for number in (signal.SIGSTOP, signal.SIGCONT):
            for it in processes:
                if it.is_running():
                    os.kill(it.pid, number)
            if number == signal.SIGSTOP:
                time.sleep(length)
        self.stood_still += length

    def attempt(self):
        """Starts a daemon that is to take over, while some of the processes are stopped."""
        old, broker = self.mount.daemon, self.mount.broker
        new = self.room.run("daemon", "--takeover", "broker.sock", "t0", "m", *self.mount.options)
        whose = self.chance.choice(([broker], [old], [new], [old, new], [broker, old, new]))
        stopping = threading.Thread(target=self.stop, args=(list(whose),), daemon=True)
        stopping.start()
        until(lambda: self.serving(old, new), "a daemon that serves alone", 3 * WAIT + LONGEST)
        stopping.join(WAIT + LONGEST)
        until(lambda: self.serving(old, new), "a daemon that serves alone", 3 * WAIT)
        self.mount.daemon = self.serving(old, new)
        gone = new if self.mount.daemon is old else old
        self.outcomes[gone.ending()[0]] += 1
        self.room.running.remove(gone)
        for it in self.programs:
            same((it.child.poll(), it.said()), (None, ""))

    @staticmethod
    def serving(old, new):
        """Returns the daemon that is left and serves, if only one runs."""
        running = [it for it in (old, new) if it.is_running()]
        if len(running) == 1 and running[0].lines[-1:] and running[0].lines[-1].startswith("serving "):
            return running[0]
        return None

    def finish(self):
        """Shows that no call of a program failed, and that the last daemon counts what the kernel holds."""
        all_end(self.programs)
        self.mount.generation = int(self.mount.daemon.lines[-1].split(" ")[1])
        self.mount.counts_what_is_held()
        self.mount.unmount()


def run_stopped(room, rounds, tell=lambda number, run: None):
    """Lets daemons take over `rounds` times, or try to. Returns how their attempts ended, and for how many seconds
    processes stood still."""
    it = StoppedRun(room)
    for number in range(1, rounds + 1):
        if number % 10 == 0:
            drop_caches()
        it.attempt()
        tell(number, it)
    it.finish()
    return it
