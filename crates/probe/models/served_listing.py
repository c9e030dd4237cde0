#!/usr/bin/env python3
"""Prints the rows of data/served_listing.rows: what a daemon lists, by the plain world of tests/script_rows.

The plain world says which entries there are. Their bytes are laid out here as `struct fuse_dirent` of linux/fuse.h has
them, on a little-endian machine.
"""
import os
import struct
import sys

sys.dont_write_bytecode = True
TOP = os.path.dirname(os.path.dirname(os.path.dirname(os.path.dirname(os.path.abspath(__file__)))))
sys.path.insert(0, f"{TOP}/tests/script_rows")
from plain_world import Error, Served, answered, listed, request_words  # noqa: E402

MANIFEST = ["commit 0123456789abcdef0123456789abcdef01234567", "dir src", "file 0644 12 src/a", "file 0755 0 src/b",
            "dir empty", "file 0644 7 README"]
# The types of a directory and of a regular file.
TYPES = {"dir": 4, "file": 8}
LARGE = 65536
NAMES = ("a", "b", "src", "seven77", "eight888", "nine99999", "n" * 255)


def text_of(entries):
    """Returns the bytes of entries."""
    text = b""
    for number, following, kind, name in entries:
        entry = struct.pack("<QQII", number, following, len(name), TYPES[kind]) + name.encode()
        text += entry + bytes(-len(entry) % 8)
    return text


def spelled(text):
    """Returns bytes as a row spells them."""
    plain = b".-_/"
    return "".join(chr(it) if chr(it).isalnum() and it < 128 or it in plain else f"%{it:02x}" for it in text) or "0x"


class Rows:
    """What one daemon serves, and the rows of its answers."""

    def __init__(self, title):
        self.served = Served(MANIFEST)
        print(f"\ncase {title}\nserved serve 8 @checkout = ok")

    def lists(self, number, offset, size):
        """Returns the answer to a READDIR."""
        if number not in self.served.numbers:
            return "error ESTALE"
        try:
            return f"buffer {spelled(text_of(listed(self.served, number, offset, size)))}"
        except Error as error:
            return f"error {error}"

    def ask(self, *requests):
        """Prints a row for each request."""
        for request in requests:
            words = request_words(request)
            if words[0] == "readdir":
                answer = self.lists(*map(int, words[1:]))
            elif words[0] == "forget":
                self.served.forget(int(words[1]), int(words[2]))
                answer = "none"
            else:
                answer = answered(self.served, words)
            print(f"served ask {request} = {answer}")

    def hands_on(self, version):
        """Prints the row of a takeover: the next daemon serves the same."""
        print(f"served on 8 2 {version} = ok")


def print_worked():
    """Prints the cases of one hazard each."""
    rows = Rows("lists a directory in which no file has a number, and what has one")
    rows.ask("readdir 1 0 4096", "lookup 1 src", "readdir 1 0 4096", "lookup 1 README", "readdir 1 0 4096",
             "readdir 2 0 4096")

    rows = Rows("lists an empty directory")
    rows.ask("lookup 1 empty", "readdir 2 0 4096", "readdir 2 1 4096", "readdir 2 2 4096")

    rows = Rows("goes on from each offset")
    for offset in (*range(0, 9), 2**32, 2**63, 2**64 - 1):
        rows.ask(f"readdir 1 {offset} 4096")

    rows = Rows("lists as many entries as have room")
    for size in (0, 1, 31, 32, 33, 63, 64, 65, 95, 96, 127, 128, 159, 160, 161, 65511, 65512, 65513, 2**32 - 1):
        rows.ask(f"readdir 1 0 {size}")

    rows = Rows("lists nothing where the first name has no room")
    rows.ask(f"create 1 0644 {'n' * 255}", "readdir 1 6 279", "readdir 1 7 279", "readdir 1 7 280", "readdir 1 7 281")

    rows = Rows("tells the first error")
    rows.ask("readdir 9 0 4096", "lookup 1 README", "readdir 2 0 4096", "readdir 2 0 0", "forget 2 1",
             "readdir 2 0 4096")

    rows = Rows("lists nothing of a directory whose name is gone")
    rows.ask("mkdir 1 0700 d", "readdir 2 0 4096", "rmdir 1 d", "readdir 2 0 4096", "readdir 2 1 4096", "getattr 2")

    rows = Rows("lists no name that is gone, and lists the file that takes it behind all others")
    rows.ask("lookup 1 src", "unlink 2 a", "readdir 2 0 4096", "create 2 0600 a", "readdir 2 0 4096", "unlink 2 a",
             "readdir 2 0 4096")

    rows = Rows("lists a file that is moved at its own offset, wherever it stands")
    rows.ask("lookup 1 src", "lookup 1 README", "rename 2 1 a/z", "readdir 1 0 4096", "readdir 2 0 4096",
             "rename 1 2 z/a", "readdir 2 0 4096")
    rows.ask("rename 1 2 README/b", "readdir 1 0 4096", "readdir 2 0 4096", "getattr 3")

    rows = Rows("tells no number that is kept for the files of its directory alone")
    rows.ask("lookup 1 src", "lookup 2 a", "forget 2 1", "readdir 1 0 4096", "readdir 2 0 4096", "lookup 1 src",
             "readdir 2 0 4096")

    rows = Rows("tells the directory above a directory that moved")
    rows.ask("lookup 1 src", "lookup 1 empty", "rename 1 2 empty/e", "readdir 3 0 4096", "forget 2 1",
             "readdir 3 0 4096")


def print_run():
    """Prints a long run of requests that dice choose, with takeovers between them."""
    rows, dice, listings = Rows("lists what a plain list says"), 20260, 0
    for turn in range(1000):
        dice = (dice * 6364136223846793005 + 1442695040888963407) % 2**64
        chosen, served = dice // 2**31, rows.served
        live = [1, *(number for number, count in served.counts.items() if count)]
        number, other = live[chosen // 16 % len(live)], live[chosen // 64 % len(live)]
        name, other_name = NAMES[chosen // 256 % len(NAMES)], NAMES[chosen // 2048 % len(NAMES)]
        match chosen % 16:
            case 0 | 1:
                rows.ask(f"create {number} 0644 {name}")
            case 2:
                rows.ask(f"mkdir {number} 0755 {name}")
            case 3 | 4:
                rows.ask(f"lookup {number} {name}")
            case 5:
                rows.ask(f"unlink {number} {name}")
            case 6:
                rows.ask(f"rmdir {number} {name}")
            case 7 | 8:
                rows.ask(f"rename {number} {other} {name}/{other_name}")
            case 9 if number != 1:
                rows.ask(f"forget {number} {chosen // 16384 % served.counts[number] + 1}")
            case _:
                size = LARGE if chosen % 2 else chosen // 16384 % 512
                rows.ask(f"readdir {number} {chosen // 8192 % (served.next_file + 2) if chosen % 3 else 0} {size}")
                listings += 1
        if turn % 50 == 49:
            rows.hands_on(turn // 50 % 4 + 1)
    assert listings > 250 and rows.served.next_file > 40


def main():
    print("# What a daemon lists, as bytes. Printed by models/served_listing.py.")
    for line in MANIFEST:
        print(f"|checkout {line}")
    print_worked()
    print_run()


if __name__ == "__main__":
    main()
