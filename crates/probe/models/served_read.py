#!/usr/bin/env python3
"""Prints the rows of data/served_read.rows: which bytes a daemon reads, by the plain world of tests/script_rows."""
import os
import sys

sys.dont_write_bytecode = True
TOP = os.path.dirname(os.path.dirname(os.path.dirname(os.path.dirname(os.path.abspath(__file__)))))
sys.path.insert(0, f"{TOP}/tests/script_rows")
from plain_world import Served, answered, request_words  # noqa: E402

# The sizes of files: none, around the most bytes that a READ may ask for, above 2^32, and the greatest one.
SIZES = (0, 1, 65511, 65512, 65513, 131024, 4294967297, 2**63 - 1)
MANIFEST = ["commit 0123456789abcdef0123456789abcdef01234567", "dir src", "file 0644 12 src/a",
            "file 0755 70000 src/b", "dir empty", "file 0644 7 README"]
MANIFEST += [f"file 0644 {size} f{size}" for size in SIZES]
NAMES = ("a", "b", "README", "f65513", "new", "n" * 255)
# As many bytes as an answer has at most.
MOST = 65512


class Rows:
    """What one daemon serves, and the rows of its answers."""

    def __init__(self, title):
        self.served = Served(MANIFEST)
        print(f"\ncase {title}\nserved serve 8 @checkout = ok")

    def ask(self, *requests):
        """Prints a row for each request."""
        for request in requests:
            words = request_words(request)
            if words[0] == "forget":
                self.served.forget(int(words[1]), int(words[2]))
                answer = "none"
            else:
                answer = answered(self.served, words)
            print(f"served ask {request} = {answer}")

    def hands_on(self, version):
        """Prints the row of a takeover: the next daemon serves the same."""
        print(f"served on 8 2 {version} = ok")


def print_worked():
    """Prints the cases of one hazard each."""
    rows = Rows("reads from each offset in each size")
    for number, size in enumerate(SIZES, 2):
        rows.ask(f"lookup 1 f{size}")
        offsets = {0, 1, MOST, 2**32, 2**63, 2**64 - 1, *(size + by for by in (-MOST - 1, -MOST, -1, 0, 1))}
        for offset in sorted(offset for offset in offsets if 0 <= offset < 2**64):
            rows.ask(*(f"read {number} {offset} {many}" for many in (0, 1, 4096, MOST)))

    rows = Rows("reads no more bytes than an answer may have")
    rows.ask("lookup 1 f131024")
    for size in (MOST - 1, MOST, MOST + 1, 65535, 65536, 131024, 2**31, 2**32 - 1):
        rows.ask(f"read 2 0 {size}", f"read 2 131024 {size}", f"read 2 {2**64 - 1} {size}")

    rows = Rows("tells the first error")
    rows.ask("read 9 0 4096", f"read 9 0 {MOST + 1}", "read 0 0 1", f"read {2**64 - 1} 0 1", "read 1 0 4096",
             f"read 1 0 {MOST + 1}", "lookup 1 empty", "read 2 0 0", "lookup 1 README", f"read 3 0 {MOST + 1}",
             "forget 3 1", "read 3 0 4096", f"read 3 0 {MOST + 1}", "rmdir 1 empty", "read 2 0 4096", "forget 2 1",
             "read 2 0 4096")

    rows = Rows("reads nothing of a file that is made, also once its name is gone")
    rows.ask("create 1 0644 new", "read 2 0 4096", "read 2 1 4096", "read 2 0 0", "unlink 1 new", "read 2 0 4096",
             "create 1 0600 new", "read 2 0 4096", "read 3 0 4096")

    rows = Rows("reads a file whose name is gone, and another one that has it now")
    rows.ask("lookup 1 README", "unlink 1 README", "read 2 3 4096", "create 1 0644 README", "read 2 3 4096",
             "read 3 0 4096", "lookup 1 README", "read 3 0 4096", "forget 2 1", "read 2 3 4096", "read 3 0 4096")

    rows = Rows("reads a file that moves, or that another one replaces")
    rows.ask("lookup 1 src", "lookup 2 a", "lookup 1 README", "read 3 0 5", "rename 2 1 a/z", "read 3 5 5",
             "rename 1 2 z/a", "read 3 10 5", "rename 1 2 README/a", "read 3 0 4096", "read 4 0 4096", "lookup 2 a",
             "getattr 3")

    for version in (1, 2, 3, 4):
        rows = Rows(f"reads the same behind a takeover by version {version}")
        rows.ask("lookup 1 src", "lookup 2 a", "lookup 2 b", "lookup 1 README", "create 1 0644 new", "unlink 2 a",
                 "create 2 0644 a", "unlink 1 new", "rename 1 2 README/z")
        reads = [f"read {number} 3 4096" for number in range(2, 9)]
        rows.ask(*reads)
        rows.hands_on(version)
        rows.ask(*reads, "create 1 0644 new", *reads, "forget 3 1", *reads)
        rows.hands_on(version)
        rows.ask(*reads)


def print_run():
    """Prints a long run of requests that dice choose, with takeovers between them."""
    rows, dice, reads = Rows("reads what a plain list says"), 20260, 0
    for turn in range(1000):
        dice = (dice * 6364136223846793005 + 1442695040888963407) % 2**64
        chosen, served = dice // 2**31, rows.served
        live = [1, *(number for number, count in served.counts.items() if count)]
        directories = [number for number in live if served.kind(served.numbers[number]) == "dir"]
        files = [number for number in live if number not in directories]
        number, other = (directories[chosen // by % len(directories)] for by in (16, 64))
        name, other_name = NAMES[chosen // 256 % len(NAMES)], NAMES[chosen // 2048 % len(NAMES)]
        match chosen % 16:
            case 0:
                rows.ask(f"create {number} 0644 {name}")
            case 1 if chosen // 16 % 4 == 0:
                rows.ask(f"mkdir {number} 0755 {name}")
            case 1 | 2 | 3 | 4:
                there = sorted(name for above, name in served.links if above == served.numbers[number])
                rows.ask(f"lookup {number} {there[chosen // 256 % len(there)] if there else name}")
            case 5:
                rows.ask(f"unlink {number} {name}")
            case 6 | 7:
                rows.ask(f"rename {number} {other} {name}/{other_name}")
            case 8 if live[chosen // 16 % len(live)] != 1:
                number = live[chosen // 16 % len(live)]
                rows.ask(f"forget {number} {chosen // 16384 % served.counts[number] + 1}")
            case _:
                numbers = files if files and chosen // 16 % 8 else live
                number, size = numbers[chosen // 128 % len(numbers)], chosen // 16384 % (MOST + 8)
                length = served.files[served.numbers[number]][2]
                rows.ask(f"read {number} {chosen // 8192 % (length + 3)} {size if chosen % 3 else size % 16}")
                reads += 1
        if turn % 50 == 49:
            rows.hands_on(turn // 50 % 4 + 1)
    assert reads > 350 and rows.served.next_file > 30


def main():
    print("# Which bytes of a file a daemon reads. Printed by models/served_read.py.")
    for line in MANIFEST:
        print(f"|checkout {line}")
    print_worked()
    print_run()


if __name__ == "__main__":
    main()
