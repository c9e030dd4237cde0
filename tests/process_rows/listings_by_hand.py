"""Rows: a broker that speaks frames by hand asks a daemon for the entries of directories, and compares each byte."""
import errno
import struct

from process_rows.checks import row, same
from process_rows.getdents import DT_DIR, DT_REG, UNKNOWN_INODE
from process_rows.kernel import Kernel

LOOKUP, MKDIR, UNLINK, RMDIR, RENAME, READDIR = 1, 9, 10, 11, 12, 28
# The longest buffer, and the greatest size and offset that fields have room for.
LONGEST, MOST, LAST = 65_512, 2**32 - 1, 2**64 - 1
# The sizes from none up to one that has room for all entries of a small directory, and those around the longest buffer.
SIZES = (*range(0, 170, 3), 96, 128, LONGEST - 1, LONGEST, LONGEST + 1, MOST)
OFFSETS = (*range(9), 2**31, 2**32, 2**63 - 1, 2**63, LAST)


def readdir(kernel, number, offset, size):
    """Asks for entries from an offset on, and returns what `reply_to` does. All other fields of `struct fuse_read_in` are
    of no use here, so they are no zeros."""
    return kernel.reply_to(READDIR, number, struct.pack("<QQIIQII", LAST, offset, size, MOST, LAST, MOST, MOST))


def text_of(position, number, kind, name):
    """Returns the text of an entry, as `struct fuse_dirent` and FUSE_DIRENT_ALIGN have it."""
    text = struct.pack("<QQII", number, position + 1, len(name), kind) + name
    return text + bytes(-len(text) % 8)


def listing(entries, offset, size):
    """Returns the texts of the entries from an offset on, as many as have room."""
    text, room = b"", min(size, LONGEST)
    for entry in entries:
        if entry[0] >= offset:
            more = text_of(*entry)
            if len(text) + len(more) > room:
                break
            text += more
    return text


def lists(kernel, number, entries, offsets=OFFSETS, sizes=SIZES):
    """Shows that a directory is listed as its entries say, from each offset and in each size."""
    for offset, size in ((offset, size) for offset in offsets for size in sizes):
        _, error, text = readdir(kernel, number, offset, size)
        same((offset, size, error, text), (offset, size, 0, listing(entries, offset, size)))


def looked_up(kernel, number, name):
    """Looks a name up, and returns its number."""
    return struct.unpack("<Q", kernel.ask(LOOKUP, number, name + b"\0")[1][:8])[0]


def entries_of(number, above, *children):
    """Returns what a directory lists: itself, the directory above it, and its children."""
    return [(0, number, DT_DIR, b"."), (1, above, DT_DIR, b".."), *children]


def ends(kernel, daemon, lines):
    with kernel.lock:
        kernel.is_over = True
    daemon.ends([*lines, "ended"])


@row
def a_daemon_lists_from_each_offset_in_each_size(room):
    """READDIR of a daemon: the entries from each offset, as many as have room in each size, each byte as `linux/fuse.h` has
    it. An entry has the number that was given out for its file, also once the next daemon serves."""
    kernel = Kernel(room)
    first = room.mount()
    first.printed("serving 1")
    lists(kernel, 1, entries_of(1, 1, (2, UNKNOWN_INODE, DT_DIR, b"src"), (5, UNKNOWN_INODE, DT_REG, b"README")))
    src = looked_up(kernel, 1, b"src")
    inner = entries_of(src, 1, (3, UNKNOWN_INODE, DT_REG, b"a"), (4, UNKNOWN_INODE, DT_REG, b"b"))
    lists(kernel, src, inner)
    inner[3] = (4, looked_up(kernel, src, b"b"), DT_REG, b"b")
    lists(kernel, src, inner)
    second = room.take_over()
    second.printed("serving 2")
    lists(kernel, src, inner)
    lists(kernel, 1, entries_of(1, 1, (2, src, DT_DIR, b"src"), (5, UNKNOWN_INODE, DT_REG, b"README")))
    first.ends(["serving 1", "handed over"])
    ends(kernel, second, ["serving 2"])


@row
def a_listing_follows_what_changes(room):
    """A file that is made comes last, one that moves within a directory keeps its position, and one that moves to another has
    the same there. A directory that was removed lists nothing, and what is no directory, or no number, is an error."""
    kernel = Kernel(room)
    daemon = room.mount()
    daemon.printed("serving 1")
    src = looked_up(kernel, 1, b"src")
    made = struct.unpack("<Q", kernel.ask(MKDIR, src, struct.pack("<II", 0o755, 0) + b"made\0")[1][:8])[0]
    a, b, new = (3, UNKNOWN_INODE, DT_REG, b"a"), (4, UNKNOWN_INODE, DT_REG, b"b"), (6, made, DT_DIR, b"made")
    lists(kernel, src, entries_of(src, 1, a, b, new))
    lists(kernel, made, entries_of(made, src))
    kernel.ask(RENAME, src, struct.pack("<Q", src) + b"a\0longer than it was\0")
    lists(kernel, src, entries_of(src, 1, (*a[:3], b"longer than it was"), b, new))
    kernel.ask(RENAME, src, struct.pack("<Q", made) + b"longer than it was\0a\0")
    lists(kernel, src, entries_of(src, 1, b, new))
    lists(kernel, made, entries_of(made, src, a))
    same(kernel.reply_to(RMDIR, src, b"made\0")[1], -errno.ENOTEMPTY)
    kernel.ask(UNLINK, made, b"a\0")
    kernel.ask(RMDIR, src, b"made\0")
    lists(kernel, made, [])
    lists(kernel, src, entries_of(src, 1, b))
    same(readdir(kernel, looked_up(kernel, 1, b"README"), 0, MOST), (1, -errno.ENOTDIR, b""))
    same(readdir(kernel, 99, 0, MOST), (1, -errno.ESTALE, b""))
    ends(kernel, daemon, ["serving 1"])


@row
def the_longest_answer_is_full(room):
    """A directory of more names than one answer has room for is listed by answers of 65,512 bytes: to the last byte where an
    entry ends there, and without the entry that is a byte too long."""
    kernel = Kernel(room)
    names = [b"n%04d" % it for it in range(3000)]
    # 2,046 entries of 32 bytes stand before one of 40, or before one of 48.
    for last, length in ((b"l" * 16, LONGEST), (b"l" * 17, LONGEST - 40)):
        names[2044] = last
        room.write("m", b"commit " + b"01" * 20 + b"\n" + b"".join(b"file 0644 0 %s\n" % it for it in names))
        daemon = room.mount()
        daemon.printed("serving 1")
        entries = entries_of(1, 1, *((it, UNKNOWN_INODE, DT_REG, name) for it, name in enumerate(names, 2)))
        same(len(readdir(kernel, 1, 0, MOST)[2]), length)
        sizes = (LONGEST - 41, LONGEST - 1, LONGEST, LONGEST + 1, MOST)
        lists(kernel, 1, entries, (0, 1, 1000, 2046, 2047, 3001, 3002), sizes)
        ends(kernel, daemon, ["serving 1"])
        kernel.is_over = False
