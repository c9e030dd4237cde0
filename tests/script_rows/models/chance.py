#!/usr/bin/env python3
"""Prints rows of 3,900 requests that dice choose. After each, `show` has the numbers of a plain list of the same files.

After each hundred the seat goes on to a new daemon, with other versions than the one before.
"""
import os
import sys

sys.dont_write_bytecode = True
sys.path.insert(0, os.path.dirname(os.path.dirname(os.path.abspath(__file__))))
from plain_world import Script, print_text  # noqa: E402

MANIFEST = ["commit 0123456789abcdef0123456789abcdef01234567", "dir d", "file 0644 12 d/a", "file 0644 7 b"]
VERSIONS = ("1", "1 2", "1 2 3", "1 2 3 4")
TAKEOVERS, REQUESTS = 39, 100


class Chooser:
    """Chooses requests about files that the kernel holds. Files are told by their index, from 0 for the root."""

    def __init__(self, served):
        self.served = served

    def number(self, index):
        return self.served.number_of[index + 1]

    def count(self, index):
        return 1 if index == 0 else self.served.counts.get(self.served.number_of.get(index + 1), 0)

    def held_from(self, start, kinds=("dir", "file")):
        """Returns the first file from an index on that is held, around the end of the list."""
        files = len(self.served.files)
        around = ((start + step) % files for step in range(files))
        return next(index for index in around if self.count(index) > 0 and self.served.kind(index + 1) in kinds)

    def directory(self, dice):
        """Returns a directory that is held, or in one of 16 cases any file that is."""
        return self.number(self.held_from(dice % 4096, ("dir", "file") if dice % 16 == 0 else ("dir",)))

    def place(self, dice):
        """Returns the number of a directory, and a name in it."""
        return self.directory(dice // 4), "abcd"[dice % 4]

    def forget(self, index, dice):
        if index == 0:
            return "getattr 1"
        return f"forget {self.number(index)} {dice % self.count(index) + 1}"

    def request(self, dice):
        directory, name = self.place(dice // 16)
        node, kind = self.held_from(dice // 64 % 4096), dice % 16
        if kind <= 4:
            return f"lookup {directory} {name}"
        if kind <= 6:
            return f"create {directory} 0644 {name}"
        if kind == 7:
            return f"mkdir {directory} 0755 {name}"
        if kind == 8:
            return f"unlink {directory} {name}"
        if kind <= 12:
            to_directory, to_name = self.place(dice // 262144)
            return f"rename {directory} {to_directory} {name}/{to_name}"
        if kind <= 14:
            return self.forget(node, dice // 262144)
        if dice // 262144 % 2 == 0:
            return f"getattr {self.number(node)}"
        if dice // 524288 % 2 == 0:
            return f"read {self.number(node)} {dice // 1048576 % 16} {dice % 256 // 16}"
        return f"readdir {directory} {dice // 1048576 % len(self.served.files)} {dice % 256}"


def hand_on(script, versions):
    """Hands the seat on to a new daemon."""
    old, new, messages = script.world.seat, len(script.world.daemons) + 1, script.world.messages
    script.play(f"start {versions}")
    script.play(f"hear {old} {len(messages)}")
    script.play(f"hear {new} {len(messages)}", f"drained {old}")
    script.play(f"hear {new} {len(messages)}")
    first = len(messages) + 1
    script.play(f"hear {old} {len(messages)}")
    for position in range(first, len(messages) + 1):
        script.play(f"hear {new} {position}")
    assert script.play(f"claim {new}").startswith("claimed ")


def main():
    print_text("small", MANIFEST)
    script, dice, moves, replaced = Script("goes as a plain list says", "small", MANIFEST), 20260, 0, 0
    script.play("start", "mount 1")
    for turn in range(TAKEOVERS):
        for _ in range(REQUESTS):
            dice = (dice * 6364136223846793005 + 1442695040888963407) % 2**64
            daemon = script.world.daemons[script.world.seat - 1]
            before = daemon.served.links
            script.play(f"do {Chooser(daemon.served).request(dice // 2**31)}", "show")
            new = [(place, file) for place, file in daemon.served.links.items() if before.get(place) != file]
            moves += any(file in before.values() for _, file in new)
            replaced += any(place in before for place, _ in new)
        hand_on(script, VERSIONS[turn % 4])
        script.play("show")
    assert daemon.served.next_number > 200 and moves > 200 and replaced > 20


if __name__ == "__main__":
    main()
