#!/usr/bin/env python3
"""Prints rows of takeovers in which the old daemon, the new one, or both crash behind each event from the second `start` on.

Where the mount ended, nobody's claim succeeds until a new daemon mounts, nor does one after that, whatever is heard. Else
the daemon of the seat serves on. TAKEOVERS has how often each of these comes, as counted from the table of phases.
"""
import os
import sys

sys.dont_write_bytecode = True
sys.path.insert(0, os.path.dirname(os.path.dirname(os.path.abspath(__file__))))
from plain_world import Script, print_text  # noqa: E402

COMMIT = "commit 0123456789abcdef0123456789abcdef01234567"
MANIFESTS = {
    "small": [COMMIT, "dir src", "file 0644 12 src/a", "file 0755 0 src/b", "file 0644 7 README"],
    "many": [COMMIT, *(f"file 0644 0 f{file:03}" for file in range(200))],
}
BEGUN = ["start", "mount 1"]
CHOSEN = ["start", "hear 1 2", "hear 2 3", "drained 1", "hear 2 4", "hear 1 5"]
CRASHES = ((1,), (2,), (1, 2))

# A takeover: what it shows, its manifest, the events before the second `start` and those from there on, and its tally:
# after how many crashes the mount ended, and after how many it did not; how many claims are refused as Ended, and how many
# as Stale; and how many daemons claim back the seat that they had.
TAKEOVERS = (
    ("the kernel holds an unlinked file", "small",
     [*BEGUN, "do lookup 1 src", *["do lookup 1 README"] * 3, "do create 1 0600 t", "do unlink 1 t"],
     [*CHOSEN, "hear 2 6", "claim 2", "do getattr 4", "do forget 3 2", "show"], (44, 22, 3, 25, 5)),
    ("a reply is delivered after the data", "small",
     [*BEGUN, "do lookup 1 src", "issue lookup 1 src", "take 1", "work 1 1", "post 1 1"],
     [*CHOSEN, "deliver", "issue forget 2 1", "hear 2 6", "claim 2", "show", "take 2", "work 2 1", "show"],
     (56, 28, 5, 39, 9)),
    ("the old daemon claims the seat back before the new one comes", "small", BEGUN,
     [*CHOSEN, "giveup 1", "claim 1", "hear 2 6", "claim 2", "show"], (44, 22, 5, 27, 2)),
    ("two new daemons hear the same data", "small", BEGUN,
     ["start", "start", "hear 1 2", "hear 2 4", "hear 3 4", "drained 1", "hear 2 5", "hear 1 6", "hear 2 7", "hear 3 7",
      "hear 2 7", "claim 3", "claim 2", "giveup 1", "claim 1", "show"], (44, 52, 19, 21, 4)),
    ("the image is in two parts", "many",
     ["start 1 2", "mount 1", *(f"do lookup 1 f{file:03}" for file in range(200))],
     ["start 1 2", *CHOSEN[1:], "hear 2 7", "hear 2 6", "hear 2 6", "hear 2 7", "claim 2"], (44, 22, 6, 28, 11)),
)


class Stopped(Script):
    """A script whose daemons crash, and its tally."""

    tally = dict.fromkeys(("ended", "kept", "Ended", "Stale", "claimed back"), 0)

    def claim_in_vain(self, daemon):
        cause = self.play(f"claim {daemon}").split(" ")[1]
        assert cause == "WrongPhase" or cause == ("Stale" if self.world.seat else "Ended")
        if cause in self.tally:
            self.tally[cause] += 1

    def hear_in_vain(self, daemon, count):
        """Makes a daemon hear the first messages, and claim after each."""
        for position in range(1, count + 1):
            self.play(f"hear {daemon} {position}")
            self.claim_in_vain(daemon)

    def is_served(self):
        """Asks, and once more where a forget came first. An older ask may be answered instead."""
        told = self.play("do getattr 1")
        if not told.startswith("answer "):
            told = self.play("do getattr 1")
        assert told.startswith("answer ") and " error " not in told

    def mount_again(self):
        self.play("start 1 2")
        new = len(self.world.daemons)
        for daemon in range(1, new + 1):
            self.claim_in_vain(daemon)
        self.play(f"mount {new}")
        count = len(self.world.messages)
        self.play("start 1 2")
        self.is_served()
        for daemon in [new + 1, *range(1, new)]:
            self.hear_in_vain(daemon, count)
        self.is_served()

    def serve_on(self):
        """Makes the daemon of the seat give up, and claim where it wants to. Then it serves, and answers an offer."""
        seat = self.world.seat
        self.play(f"giveup {seat}")
        self.tally["claimed back"] += self.play(f"claim {seat}").startswith("claimed ")
        self.is_served()
        self.play("start 1 2")
        assert "choice" in self.play(f"hear {seat} {len(self.world.messages)}")

    def go_on(self, rest):
        if self.world.seat:
            self.tally["kept"] += 1
            for line in rest:
                self.play(line)
            self.serve_on()
        else:
            self.tally["ended"] += 1
            for line in rest:
                if line.startswith("claim "):
                    self.claim_in_vain(line.split(" ")[1])
                else:
                    self.play(line)
            self.mount_again()
        self.play("show")


def stop(what, name, begun, rest, crashed):
    """Prints two cases in which daemons crash behind events: in one nothing else comes, and in one the rest."""
    daemons = " and ".join(str(daemon) for daemon in crashed)
    for behind, comes in (([], "no more"), (rest, "what is left")):
        title = f"goes on behind a crash of {daemons} after event {len(begun)}, where {what} and {comes} comes"
        script = Stopped(title, name, MANIFESTS[name])
        script.play(*begun, *(f"crash {daemon}" for daemon in crashed))
        script.go_on(behind)


def main():
    for name, lines in MANIFESTS.items():
        print_text(name, lines)
    for what, name, before, behind, tally in TAKEOVERS:
        Stopped.tally = dict.fromkeys(Stopped.tally, 0)
        for place in range(1, len(behind) + 1):
            for crashed in CRASHES:
                stop(what, name, [*before, *behind[:place]], behind[place:], crashed)
        assert tuple(Stopped.tally.values()) == tally, (what, Stopped.tally)


if __name__ == "__main__":
    main()
