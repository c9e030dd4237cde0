"""Rows: a broker's scripts, with what daemons of the test's own do between their lines."""
import errno
import struct
import time

from process_rows.checks import row, same
from process_rows.frames import request, u64
from process_rows.rooms import MANIFEST

# How long a line is looked at that has to wait, in seconds.
MOMENT = 0.1
DIRECTORY = "dir 0755 0 2"


def error_reply(unique):
    """Returns the reply that a name isn't there."""
    return struct.pack("<IiQ", 16, -2, unique)


def entry_reply(unique, number):
    """Returns the reply that gives a number out, for a directory with permissions 0755 and two links."""
    attributes = struct.pack("<6Q10I", number, 0, 0, 0, 0, 0, 0, 0, 0, 0o40755, 2, 0, 0, 0, 4096, 0)
    return struct.pack("<IiQ", 144, 0, unique) + struct.pack("<4Q2I", number, 0, 0, 0, 0, 0) + attributes


def forget(number, count):
    """Returns the message by which a kernel takes look-ups of one number back."""
    return request(2, 0, number, struct.pack("<Q", count))


class Course:
    """A broker with a script, and the lines that it printed so far."""

    def __init__(self, room, *script):
        self.room, self.lines, self.unique = room, [], 0
        self.broker = room.broker(*script)

    def daemon(self):
        """Attaches a daemon."""
        it = self.room.peer()
        it.attach()
        return it

    def waits(self):
        """Shows that the next line waits."""
        time.sleep(MOMENT)
        same(self.broker.lines, self.lines)

    def comes(self, *lines):
        """Shows that these lines come next, and that the line behind them waits."""
        self.lines += lines
        self.broker.awaits(lambda printed: len(printed) >= len(self.lines))
        self.waits()

    def mounts(self, daemon, generation, *lines):
        same(daemon.ask("Mount"), ("Mounted", u64(generation)))
        self.comes(f"seat {generation}", *lines)

    def asked(self, daemon, generation, text):
        """Lets a daemon take the next ask, and compares its bytes: a line of the script waits for the reply."""
        self.waits()
        self.unique += 1
        same(daemon.take_ask(generation), ("Ask", text(self.unique)))
        self.waits()

    def posts(self, daemon, generation, reply, *lines):
        same(daemon.ask("Post", u64(generation) + reply(self.unique)), ("Posted", b""))
        self.comes(*lines)

    def ends(self, *daemons):
        """Ends the daemons' connections, that of the seat's last, and compares all that the broker printed."""
        for it in daemons[:-1]:
            it.close()
        self.broker.printed("ended")
        daemons[-1].close()
        self.broker.ends([*self.lines, "ended"])


def lookup(name):
    return lambda unique: request(1, unique, 1, name + b"\0")


def getattr_of(number):
    return lambda unique: request(3, unique, number, bytes(16))


def readdir_of(number, offset, size):
    body = struct.pack("<QQIIQII", 0, offset, size, 0, 0, 0, 0)
    return lambda unique: request(28, unique, number, body)


def read_of(number, offset, size):
    body = struct.pack("<QQIIQII", 0, offset, size, 0, 0, 0, 0)
    return lambda unique: request(15, unique, number, body)


def entry_of(number, following, kind, name):
    """Returns an entry of a directory, whose kind is the type of the system's."""
    entry = struct.pack("<QQII", number, following, len(name), kind) + name
    return entry + bytes(-len(entry) % 8)


def buffer_of(text):
    return lambda unique: struct.pack("<IiQ", 16 + len(text), 0, unique) + text


def failed(error):
    return lambda unique: struct.pack("<IiQ", 16, -error, unique)


def given(number):
    return lambda unique: entry_reply(unique, number)


@row
def a_script_goes_from_line_to_line(room):
    """Each line of a broker's script waits for what it waits for, and prints that."""
    it = Course(room, "seat 1", "ask lookup 1 src", "held", "forget 2 1", "idle")
    it.waits()
    daemon = it.daemon()
    it.waits()
    it.mounts(daemon, 1)
    it.asked(daemon, 1, lookup(b"src"))
    it.posts(daemon, 1, given(2), f"answer 1 entry 2 {DIRECTORY}", "held 2 1", "asked")
    same(daemon.take_ask(1), ("Ask", forget(2, 1)))
    it.lines.append("idle")
    it.ends(daemon)


@row
def an_ask_is_lost_with_the_mount(room):
    """An ask is lost where the mount ends while it waits for a daemon, and where it ends while a daemon has it."""
    it = Course(room, "seat 1", "ask getattr 1", "seat 2", "ask getattr 1", "seat 3")
    first = it.daemon()
    it.mounts(first, 1)
    first.close()
    it.comes("lost 1")
    second = it.daemon()
    it.mounts(second, 2)
    it.unique = 1
    it.asked(second, 2, getattr_of(1))
    second.close()
    it.comes("lost 2")
    third = it.daemon()
    same(third.ask("Mount"), ("Mounted", u64(3)))
    it.lines.append("seat 3")
    it.ends(third)


@row
def requests_of_a_script_are_refused(room):
    """A broker's script is told why a request is refused, before a daemon mounts and behind that."""
    behind = ["ask getattr 2", "forget 2 1", "forget 1 1"]
    it = Course(room, "ask getattr 1", "forget 2 1", "idle", "held", "seat 1", *behind, "seat 2")
    it.comes("refused NotMounted", "refused NotMounted", "idle")
    daemon = it.daemon()
    it.mounts(daemon, 1, "refused NotHeld", "refused BadForget", "refused BadForget")
    same(daemon.ask("Claim", u64(1)), ("Claimed", u64(2)))
    it.lines.append("seat 2")
    it.ends(daemon)


@row
def a_script_waits_for_a_later_seat(room):
    """A line waits for a seat at its generation or a later one, and tells the seat that there is."""
    it = Course(room, "seat 1", "ask getattr 1", "seat 2", "seat 0", "seat 3")
    first, second = it.daemon(), it.daemon()
    it.mounts(first, 1)
    it.asked(first, 1, getattr_of(1))
    it.posts(first, 1, error_reply, "answer 1 error ENOENT")
    same(second.ask("Claim", u64(1)), ("Claimed", u64(2)))
    it.comes("seat 2", "seat 2")
    same(first.ask("Claim", u64(2)), ("Claimed", u64(3)))
    it.lines.append("seat 3")
    it.ends(second, first)


@row
def an_ask_is_answered_by_the_daemon_that_claimed(room):
    """An ask that waits where the seat passes on is answered by the next daemon."""
    it = Course(room, "seat 1", "ask lookup 1 a", "held", "seat 3")
    first, second = it.daemon(), it.daemon()
    it.mounts(first, 1)
    same(second.ask("Claim", u64(1)), ("Claimed", u64(2)))
    it.asked(second, 2, lookup(b"a"))
    it.posts(second, 2, error_reply, "answer 1 error ENOENT")
    same(second.ask("Claim", u64(2)), ("Claimed", u64(3)))
    it.lines.append("seat 3")
    it.ends(first, second)


@row
def held_numbers_are_told_by_rising_number(room):
    """A script is told how often each number is held, by rising number, and of no number that is forgotten."""
    asks = ["ask lookup 1 a", "ask lookup 1 b", "ask lookup 1 b"]
    it = Course(room, "seat 1", *asks, "held", "forget 3 2", "held", "seat 2")
    daemon = it.daemon()
    it.mounts(daemon, 1)
    for name, number, *lines in ((b"a", 70), (b"b", 3), (b"b", 3, "held 3 2", "held 70 1", "asked", "held 70 1")):
        it.asked(daemon, 1, lookup(name))
        it.posts(daemon, 1, given(number), f"answer {it.unique} entry {number} {DIRECTORY}", *lines)
    same(daemon.ask("Claim", u64(1)), ("Claimed", u64(2)))
    it.lines.append("seat 2")
    it.ends(daemon)


@row
def each_line_says_what_it_says(room):
    """A daemon gets exactly the request that a line says."""
    asks = ["ask lookup 1 src", "ask getattr 2", "ask lookup 1  two words", "ask mkdir 7 0700 d"]
    asks += ["ask lookup 1 c", "ask lookup 1 c"]
    seats = ["seat 2", "seat 18446744073709551615"]
    it = Course(room, "seat 1", *asks, "forget 1 0", "forget 3 2", "idle", "held", *seats)
    daemon = it.daemon()
    it.mounts(daemon, 1)
    mkdir = struct.pack("<II", 0o700, 0) + b"d\0"
    for text, reply, *lines in (
        (lookup(b"src"), given(2), f"answer 1 entry 2 {DIRECTORY}"),
        (getattr_of(2), error_reply, "answer 2 error ENOENT"),
        (lookup(b" two words"), given(7), f"answer 3 entry 7 {DIRECTORY}"),
        (lambda unique: request(9, unique, 7, mkdir), error_reply, "answer 4 error ENOENT"),
        (lookup(b"c"), given(3), f"answer 5 entry 3 {DIRECTORY}"),
        (lookup(b"c"), given(3), f"answer 6 entry 3 {DIRECTORY}", "refused BadForget", "asked"),
    ):
        it.asked(daemon, 1, text)
        it.posts(daemon, 1, reply, *lines)
    same(daemon.take_ask(1), ("Ask", forget(3, 2)))
    it.comes("idle", "held 2 1", "held 7 1")
    for generation in (1, 2, 3):
        same(daemon.ask("Claim", u64(generation)), ("Claimed", u64(generation + 1)))
        it.comes(*["seat 2"] * (generation == 1))


@row
def a_listing_is_told_by_its_entries(room):
    """A script is told each entry of a listing. Of bytes that are none, also behind an entry, it is told how many."""
    entry, other = entry_of(2, 3, 4, b"src"), entry_of(4294967295, 8, 8, b" a\xff ")
    link, socket = entry_of(2, 3, 10, b"src"), entry_of(2, 3, 12, b"src")
    answers = (
        (b"", "listing 0"),
        (entry, "listing 1", "listed 2 3 dir src"),
        (entry + other, "listing 2", "listed 2 3 dir src", "listed 4294967295 8 file  a\xff "),
        (b"abc", "buffer 3"),
        (entry + other[:-1], "buffer 63"),
        (entry + link, "listing 2", "listed 2 3 dir src", "listed 2 3 link src"),
        (entry + socket, "buffer 64"),
        (socket + entry, "buffer 64"),
        (entry + other + bytes(8), "buffer 72"),
    )
    it = Course(room, "seat 1", *["ask readdir 1 2 4096"] * len(answers), "seat 2")
    daemon = it.daemon()
    it.mounts(daemon, 1)
    for text, head, *lines in answers:
        it.asked(daemon, 1, readdir_of(1, 2, 4096))
        it.posts(daemon, 1, buffer_of(text), f"answer {it.unique} {head}", *lines)
    same(daemon.ask("Claim", u64(1)), ("Claimed", u64(2)))
    it.lines.append("seat 2")
    it.ends(daemon)


@row
def bytes_of_a_file_are_told_by_their_length(room):
    """A script is told how many bytes a READ got, or the error, which EIO is where the daemon has no bytes."""
    answers = (
        (buffer_of(b"abc"), "buffer 3"),
        (buffer_of(b"\n"), "buffer 1"),
        (buffer_of(b"x" * 65512), "buffer 65512"),
        (failed(errno.EIO), "error EIO"),
        (failed(errno.EISDIR), "error EISDIR"),
    )
    it = Course(room, "seat 1", *["ask read 1 2 4096"] * len(answers), "seat 2")
    daemon = it.daemon()
    it.mounts(daemon, 1)
    for reply, answer in answers:
        it.asked(daemon, 1, read_of(1, 2, 4096))
        it.posts(daemon, 1, reply, f"answer {it.unique} {answer}")
    same(daemon.ask("Claim", u64(1)), ("Claimed", u64(2)))
    it.lines.append("seat 2")
    it.ends(daemon)


BAD_LINES = (
    "ask forget 3 2", "ask", "ask start", "forget 3", "seat", "seat 18446744073709551616", "idle ", "do getattr 2", "",
)


@row
def bad_lines_of_a_script(room):
    """The first bad line of a broker's script is its fault, and no socket is made then."""
    head = MANIFEST.decode().splitlines()[0]
    scripts = [([line], 1) for line in BAD_LINES]
    scripts += [(["idle", "", "held"], 2), (["held", "ask forget 2 1", "ask"], 2), (["idle", "idle", "idle\r"], 3)]
    scripts += [([head, "--", "held"], 1), (["idle", "--", "held"], 2)]
    for lines, number in scripts:
        room.write("script", "".join(f"{line}\n" for line in lines).encode())
        room.run("broker", "none/s", "script").ends([f"fault: line {number}: bad line"], 1, "")


@row
def scripts_of_few_lines(room):
    """A broker's script may be empty, and its last line may lack its LF."""
    for script, lines in ((b"", []), (b"idle", ["idle"]), (b"idle\n", ["idle"]), (b"idle\nheld", ["idle"])):
        room.write("script", script)
        room.run("broker", "s", "script").ends([*lines, "ended"])


@row
def a_script_of_each_kind_of_line(room):
    """A broker's script may have a line of each kind."""
    it = Course(room, "seat 1", "ask getattr 1", "forget 2 1", "idle", "held")
    daemon = it.daemon()
    it.mounts(daemon, 1)
    it.asked(daemon, 1, getattr_of(1))
    same(daemon.ask("Post", u64(1) + error_reply(1)), ("Posted", b""))
    it.lines += ["answer 1 error ENOENT", "refused BadForget", "idle"]
    it.ends(daemon)
