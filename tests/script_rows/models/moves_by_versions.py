#!/usr/bin/env python3
"""Prints the cases of moves.rows for daemons of other versions: the image goes in parts, and in version 3 it is longer.

The plain world has to print what moves.rows wants, but for the choice of the version and for the image.
"""
import os
import sys

sys.dont_write_bytecode = True
HERE = os.path.dirname(os.path.dirname(os.path.abspath(__file__)))
sys.path.insert(0, HERE)
from cases import cases_of  # noqa: E402
from plain_world import Script, print_text  # noqa: E402

LISTS = ("1", "1 2", "1 2 3")


def print_case(case, old, new):
    """Prints the rows of a case whose daemons have these versions."""
    script = Script(f"{case.title}, from a daemon of {old} to one of {new}", "small", case.manifest)
    starts, wanted = iter((old, new)), [text for _, text in case.printed]
    for line, text in zip(case.events, wanted):
        told = script.play(f"start {next(starts)}" if line == "start" else line)
        assert told == text or text.startswith(("said 3 choice ", "said 6 data "))


def main():
    moves = list(cases_of(f"{HERE}/moves.rows"))
    print_text("small", moves[0].manifest)
    for case in moves:
        for old in LISTS:
            for new in LISTS:
                if (old, new) != ("1", "1"):
                    print_case(case, old, new)


if __name__ == "__main__":
    main()
