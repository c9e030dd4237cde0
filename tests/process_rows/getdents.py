"""Lists a directory a few bytes at a time, as getdents(2) does."""
import ctypes
import os
import struct
from typing import NamedTuple

LIBC = ctypes.CDLL(None, use_errno=True)
GETDENTS64 = 217
# What stands before a name in `struct linux_dirent64`: the inode number, the offset behind the entry, its length and its
# kind. Behind the name stands a zero at least.
HEAD = struct.Struct("<QqHB")
DT_DIR, DT_REG = 4, 8
# The inode number of a file that the daemon has no number for.
UNKNOWN_INODE = 0xFFFFFFFF


class Entry(NamedTuple):
    """An entry of a directory, as a program gets it."""

    number: int
    offset: int
    kind: int
    name: str


def some_entries(directory, room):
    """Returns the next entries of a directory that is open, as many as have room in so many bytes."""
    text = ctypes.create_string_buffer(room)
    count = LIBC.syscall(GETDENTS64, directory, text, room)
    if count < 0:
        raise OSError(ctypes.get_errno(), os.strerror(ctypes.get_errno()))
    return list(entries_in(text.raw[:count]))


def entries_in(text):
    """Goes through the entries that a text has."""
    while text:
        number, offset, length, kind = HEAD.unpack_from(text)
        yield Entry(number, offset, kind, text[HEAD.size : length].partition(b"\0")[0].decode())
        text = text[length:]


def steps(directory, room):
    """Goes through a directory that is open by steps, and gives the entries of each, up to its end."""
    while entries := some_entries(directory, room):
        yield entries


def entries_of(path, room=32768):
    """Returns the entries of the directory at a path, in their order."""
    directory = os.open(path, os.O_RDONLY | os.O_DIRECTORY)
    try:
        return [it for step in steps(directory, room) for it in step]
    finally:
        os.close(directory)


def names_of(entries):
    """Returns the names that entries have, but for `.` and `..`, which stand before them."""
    names = [it.name for it in entries]
    if names[:2] != [".", ".."]:
        raise AssertionError(f"{names[:2]} stand first")
    return names[2:]
