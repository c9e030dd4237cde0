"""Rows: takeovers in which a daemon is killed or its connection ends, at each frame and at each line that is printed.
Whatever happens, what the kernel asks is answered rightly or lost, and who serves next counts what the kernel holds."""
import itertools
import random
import threading
import time

from process_rows.checks import PATIENCE, WAIT, TooSlow, row, same
from process_rows.counts import check_lines, counts_of, image_of
from process_rows.daemons import LONG_NAMES, long_checkout, mounted_anew
from process_rows.proxies import Proxy

# A program without a proof is slow, and gets fewer rounds.
ROUNDS, ROUNDS_OF_UNPROVED = 20, 2
# The generation at which a trial ends. Those before it are for a mount that ended, for takeovers, and for images.
LAST = 5
# How daemons end that aren't killed. The old one may be gone before the new one comes to it.
ENDINGS = (("handed over", 0), ("ended", 0), ("fault: takeover failed", 1), ("fault: no daemon", 1))
SHORT_FILES = {"src": "dir 0755 0 2", "README": "file 0644 7 1"}
# Their image has 4,494 bytes, and goes in two parts.
LONG_FILES = {name: "dir 0755 0 2" for name in LONG_NAMES[:16]}


def script_of(files):
    """Returns a broker's script: it asks before and behind a takeover, and behind it ends by what is held."""
    names = list(files)
    first = [f"ask lookup 1 {name}" for name in names]
    block = []
    for place in range(30):
        name, number = names[place % len(names)], 2 + place % len(names)
        block += [f"ask lookup 1 {name}", f"ask getattr {number}", "ask getattr 1", f"forget {number} 1"]
    return ["seat 1", *first, *first, *block, "seat 2", *block, "idle", "held", "idle", f"seat {LAST}"]


def rounds_of(room):
    return range(ROUNDS if room.is_proved else ROUNDS_OF_UNPROVED)


class Trial:
    """One takeover, in a folder of its own, from an old daemon by a new one."""

    def __init__(self, room, number, files):
        self.room = room.inner()
        self.files, self.script = files, script_of(files)
        self.manifest = "m"
        if files is LONG_FILES:
            long_checkout(self.room, files)
            self.manifest = "long"
        self.chance = random.Random(number)
        self.broker = self.room.broker(*self.script)
        self.old = self.new = None
        self.ends = 0

    def kill(self, who):
        """Kills a daemon at some moment."""
        time.sleep(self.chance.random() * self.chance.choice((0, 0.001, 0.004)))
        if who:
            {"old": self.old, "new": self.new}[who].kill()

    def through_proxy(self, frames, killed, is_whole):
        """Lets a takeover pass `frames` frames, and then kills a daemon, or none."""
        room = self.room
        path = f"{room.path}/proxy.sock"
        proxy = Proxy(room, path, room.takeover_at, frames, lambda: self.kill(killed), is_whole)
        words = ("broker.sock", "proxy.sock", self.manifest)
        self.new = room.run("daemon", "--takeover", *words, "--patience", PATIENCE)
        self.old = room.mount(manifest=self.manifest)
        self.broker.printed(1 + len(self.files))
        room.await_socket(room.takeover_at)
        proxy.may_begin.set()
        proxy.thread.join(WAIT)
        same(proxy.wrong, None)
        return proxy.passed

    def by_line(self, whose, line, killed):
        """Starts a takeover, and kills a daemon once one of them printed a line. Returns what does so."""
        self.old = self.room.mount(manifest=self.manifest)
        self.broker.printed(1 + len(self.files))
        self.new = self.room.take_over(manifest=self.manifest)
        watched = {"old": self.old, "new": self.new}[whose]
        killing = threading.Thread(target=lambda: (watched.printed(line), self.kill(killed)), daemon=True)
        killing.start()
        return killing

    def next_daemon(self):
        """Returns who serves at a generation above 1, and at which path. Where nobody would, another one takes over, or
        mounts."""
        until = time.monotonic() + WAIT
        while time.monotonic() < until:
            lines = {it: it.lines[-1:] for it in (self.old, self.new) if it.is_running()}
            for it, last in lines.items():
                if last and last[0].startswith("serving ") and last[0] != "serving 1":
                    return it
            if not lines:
                self.ends = 1
                return mounted_anew(self.room, manifest=self.manifest)
            if list(lines) == [self.old]:
                third = self.room.take_over(manifest=self.manifest)
                third.printed(1)
                # The old one may end meanwhile, where the new one had the seat when it was killed.
                if third.lines[0].startswith("serving "):
                    return third
            time.sleep(0.001)
        raise TooSlow(f"nobody serves: {self.room.printed()}")

    def finish(self, path_of_new):
        """Compares all that is printed, and the image of whoever serves with what the kernel holds."""
        daemon = self.next_daemon()
        path = path_of_new if daemon is self.new else self.room.takeover_at
        images, generation = [], 0
        self.broker.awaits(lambda lines: lines.count("idle") == 2)
        while generation < LAST - 1:
            version = 1 + len(images) % 4
            generation, image = image_of(path, version)
            images.append(counts_of(image, version, generation))
            daemon.printed(f"serving {generation + 1}")
        same(self.broker.ending(), ("ended", 0))
        held = check_lines(self.script, self.broker.lines, self.files, self.ends)
        if not images or any(image != held for image in images):
            raise AssertionError(f"images count {images}, and the kernel holds {held}")
        return daemon

    def ends_well(self, daemon, killed):
        """Compares how daemons end: the next one with the mount, and others that were not killed by what they saw."""
        if daemon is not killed:
            same(daemon.ending(), ("ended", 0))
        for it in (self.old, self.new):
            if it not in (daemon, killed):
                if (last := it.ending()) not in ENDINGS:
                    raise AssertionError(f"a daemon ended by {last}")


def stopped_at_frames(room, killed, is_whole):
    """Stops takeovers behind each frame, in rounds. A daemon is killed then, or none."""
    frames = ["Offer", "Choice", "Ready", "Pong", *(["Data"] if is_whole else ["Part", "Part"])]
    for number, passes in itertools.product(rounds_of(room), range(1, len(frames) + 1)):
        trial = Trial(room, number, SHORT_FILES if is_whole else LONG_FILES)
        try:
            same(trial.through_proxy(passes, killed, is_whole), frames[:passes])
            daemon = trial.finish(f"{trial.room.path}/proxy.sock")
            trial.ends_well(daemon, {"old": trial.old, "new": trial.new, None: None}[killed])
        except Exception as wrong:
            raise AssertionError(f"round {number}: {wrong}; {trial.room.printed()}") from wrong
        finally:
            trial.room.clear()


@row
def the_old_daemon_killed_at_each_frame(room):
    """The old daemon is killed behind each frame of a takeover whose image goes whole, twenty times."""
    stopped_at_frames(room, "old", True)


@row
def the_old_daemon_killed_at_each_frame_of_parts(room):
    """The old daemon is killed behind each frame of a takeover whose image goes in parts, twenty times."""
    stopped_at_frames(room, "old", False)


@row
def the_new_daemon_killed_at_each_frame(room):
    """The new daemon is killed behind each frame of a takeover whose image goes whole, twenty times."""
    stopped_at_frames(room, "new", True)


@row
def the_new_daemon_killed_at_each_frame_of_parts(room):
    """The new daemon is killed behind each frame of a takeover whose image goes in parts, twenty times."""
    stopped_at_frames(room, "new", False)


@row
def the_connection_ends_at_each_frame(room):
    """The connection of a takeover whose image goes whole ends behind each frame, twenty times."""
    stopped_at_frames(room, None, True)


@row
def the_connection_ends_at_each_frame_of_parts(room):
    """The connection of a takeover whose image goes in parts ends behind each frame, twenty times."""
    stopped_at_frames(room, None, False)


def killed_at_line(room, whose, line, killed):
    """Kills a daemon once a line of a takeover was printed, in rounds."""
    for number in rounds_of(room):
        trial = Trial(room, number, (SHORT_FILES, LONG_FILES)[number % 2])
        try:
            killing = trial.by_line(whose, line, killed)
            if line != "ended":
                killing.join(WAIT)
            daemon = trial.finish(trial.room.takeover_at)
            killing.join(WAIT)
            trial.ends_well(daemon, {"old": trial.old, "new": trial.new}[killed])
        except Exception as wrong:
            raise AssertionError(f"round {number}: {wrong}; {trial.room.printed()}") from wrong
        finally:
            trial.room.clear()


@row
def a_daemon_killed_behind_the_first_line(room):
    """Either daemon is killed behind the line by which the old one serves, while the new one comes, twenty times each."""
    killed_at_line(room, "old", "serving 1", "old")
    killed_at_line(room, "old", "serving 1", "new")


@row
def a_daemon_killed_behind_the_next_line(room):
    """Either daemon is killed behind the line by which the new one serves, twenty times each."""
    killed_at_line(room, "new", "serving 2", "old")
    killed_at_line(room, "new", "serving 2", "new")


@row
def a_daemon_killed_behind_the_last_lines(room):
    """Either daemon is killed behind the line by which the old one handed over, and the new one behind its last line."""
    killed_at_line(room, "old", "handed over", "old")
    killed_at_line(room, "old", "handed over", "new")
    killed_at_line(room, "new", "ended", "new")
