"""A row: programs in a mount that the kernel keeps, beside the same programs on tmpfs."""
import os
import random
import subprocess
import sys
import tempfile

from process_rows.checks import row, same
from process_rows.mounts import WORK, Mount, drop_caches
from process_rows.rooms import start

CALLER = f"{os.path.dirname(os.path.abspath(__file__))}/caller.py"
# A folder of tmpfs, or none for that of temporary files, which any file system serves.
TMPFS = next(filter(os.path.isdir, ["/dev/shm"]), None)
# How many calls are made, after how many of them a daemon takes over, and after how many takeovers caches are dropped.
CALLS, CALLS_OF_UNPROVED, BETWEEN, DROPS = 6000, 2000, 200, 3
NAMES, SLOTS = "abcd", "012345"
CALL_WORDS = (
    "create", "mkdir", "unlink", "rmdir", "rename", "rename", "stat", "stat", "stat", "list", "list", "list", "hold", "fstat",
    "fstat", "drop",
)


class Pair:
    """A program that makes calls in the mount, and one that makes the same on tmpfs."""

    def __init__(self, *folders):
        words = [[sys.executable, CALLER, it] for it in folders]
        self.children = [start(it, stdin=subprocess.PIPE, stdout=subprocess.PIPE, text=True) for it in words]

    def call(self, line):
        """Has both make a call, and returns what it came to in each."""
        for it in self.children:
            it.stdin.write(f"{line}\n")
            it.stdin.flush()
        return [it.stdout.readline().strip() for it in self.children]

    def end(self):
        for it in self.children:
            it.stdin.close()
            it.wait()


def path_by(dice):
    return "/".join(dice.choice(NAMES) for _ in range(dice.choice((1, 1, 2, 2, 3))))


def call_by(dice):
    """Returns a call that dice choose."""
    match dice.choice(CALL_WORDS):
        case "create" | "mkdir" as word:
            return f"{word} {path_by(dice)} {dice.choice(('600', '644', '755'))}"
        case "rename":
            return f"rename {path_by(dice)} {path_by(dice)}"
        case "hold":
            return f"hold {dice.choice(SLOTS)} {path_by(dice)}"
        case "fstat" | "drop" as word:
            return f"{word} {dice.choice(SLOTS)}"
        case word:
            return f"{word} {path_by(dice)}"


def calls_are_those_of_tmpfs(mount, pairs, count):
    """Makes calls by dice, each by one of the pairs, while daemons take over."""
    dice = random.Random(71)
    for number in range(1, count + 1):
        line = call_by(dice)
        here, there = dice.choice(pairs).call(line)
        same((number, line, here), (number, line, there))
        if number % BETWEEN == 0:
            mount.take_over()
        if number % (BETWEEN * DROPS) == 0:
            drop_caches()


@row
def programs_see_what_they_would_on_tmpfs(room):
    """Two programs make, move, remove, list, hold and look at files by turns, as dice choose, while daemons take over and the
    kernel drops its caches: in a mount whose kernel keeps what it is told, each call comes to what it does on tmpfs."""
    mount = Mount(room, valid=())
    with tempfile.TemporaryDirectory(dir=TMPFS) as folder:
        pairs = [Pair(mount.at(WORK), folder) for _ in range(2)]
        try:
            calls_are_those_of_tmpfs(mount, pairs, CALLS if room.is_proved else CALLS_OF_UNPROVED)
        finally:
            for it in pairs:
                it.end()
    mount.counts_what_is_held()
    mount.unmount()
