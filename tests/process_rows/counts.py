"""What a kernel holds, by the lines that its broker prints, and what a daemon counts, by its image."""
import dataclasses
import struct
import time

from process_rows.checks import WAIT, TooSlow, same
from process_rows.frames import Peer, u32, u64


# ---- images


class Bytes:
    """The bytes of an image, read from the front."""

    def __init__(self, text):
        self.text = text
        self.at = 0

    def take(self, count):
        if self.at + count > len(self.text):
            raise AssertionError(f"an image of {len(self.text)} bytes ends in a field")
        self.at += count
        return self.text[self.at - count : self.at]

    def number(self, width):
        return int.from_bytes(self.take(width), "big")


def counts_of(image, version, generation):
    """Reads an image of a version, at a generation, and returns how often it counts each number."""
    fields, counts, width = Bytes(image), {}, 8 if version >= 3 else 4
    same(fields.take(6), b"EDTK" + struct.pack(">H", version))
    fields.take(20)
    same(fields.number(8), generation)
    fields.take(16)
    for _ in range(fields.number(4)):
        number, mark, count = fields.number(8), fields.number(1), fields.number(width)
        fields.take(8)
        if mark == 0:
            fields.take(fields.number(1))
        counts[number] = count
    fields.take(11 * fields.number(4))
    for _ in range(fields.number(4)):
        fields.take(8)
        fields.take(fields.number(1))
        if fields.number(1):
            fields.take(8)
    same(fields.at, len(image))
    return counts


def image_of(path, version):
    """Has the daemon at a path hand over, and claims nothing. Returns the generation and the image, which is none where
    the version can't have it. While the daemon claims the seat for itself, it is asked again."""
    until = time.monotonic() + WAIT
    while time.monotonic() < until:
        peer = Peer.at(path)
        try:
            if got := handed_to(peer, version):
                return got
        except (BrokenPipeError, ConnectionResetError):
            pass
        finally:
            peer.close()
        time.sleep(0.002)
    raise TooSlow(f"no image came from {path}")


def handed_to(peer, version):
    """Offers a version, and returns the generation and the image, or no image where the daemon has none for the version.
    Returns none where the daemon takes no offer now."""
    chosen = peer.ask("Offer", b"\x01" + struct.pack(">H", version))
    if chosen is None or chosen[0] != "Choice":
        return None
    session = chosen[1][:4]
    same(chosen[1][4:], struct.pack(">H", version))
    name, body = peer.read()
    same((name, body[:4]), ("Ready", session))
    peer.send("Pong", session)
    generation = struct.unpack(">Q", body[4:])[0]
    return generation, data_of(peer, session, generation) if version == 1 else joined_parts_of(peer, session, generation)


def data_of(peer, session, generation):
    name, body = peer.read()
    if (name, body) == ("Failed", session):
        return None
    same((name, body[:12]), ("Data", session + u64(generation)))
    return body[12:]


def joined_parts_of(peer, session, generation):
    text, position, count = b"", 0, 1
    while position < count:
        position += 1
        name, body = peer.read()
        count = struct.unpack(">I", body[16:20])[0]
        same((name, body[:20]), ("Part", session + u64(generation) + u32(position) + u32(count)))
        text += body[20:]
    return text


# ---- a kernel's lines


@dataclasses.dataclass
class Sight:
    """What a kernel knows: how often its mount ended, whether it has one, how many asks there were, the seat's
    generation, the number of each name, the number that comes next, and how often it holds each."""

    ended: int = 0
    is_mounted: bool = False
    asks: int = 0
    generation: int = 0
    numbers: dict = dataclasses.field(default_factory=dict)
    next: int = 2
    held: dict = dataclasses.field(default_factory=dict)

    def but(self, **changes):
        return dataclasses.replace(self, **{"numbers": dict(self.numbers), "held": dict(self.held), **changes})

    def after_end(self):
        return self.but(ended=self.ended + 1, is_mounted=False, numbers={}, next=2, held={})


def before(sight, ends):
    """Returns the sights that a sight may be before the next line: mounts end or begin at any time, and `ends` end."""
    sights = [sight]
    if sight.is_mounted and sight.ended < ends:
        sights.append(sight.after_end())
    return sights + [it.but(is_mounted=True) for it in sights if not it.is_mounted]


def asked(sight, words, line, files):
    """Returns the sights behind an ask, or a forget, that printed a line: none where it may not."""
    if not sight.is_mounted:
        return [sight] if line == "refused NotMounted" else []
    number = int(words[2 if words[0] == "ask" else 1])
    if words[0] == "forget":
        return forgotten(sight, number, int(words[2]), line)
    if number != 1 and not sight.held.get(number):
        return [sight] if line == "refused NotHeld" else []
    sight = sight.but(asks=sight.asks + 1)
    if line == f"lost {sight.asks}":
        return [sight.after_end()]
    return answered(sight, words, number, line, files)


def forgotten(sight, number, count, line):
    if sight.held.get(number, 0) < count:
        return [sight] if line == "refused BadForget" else []
    sight = sight.but()
    sight.held[number] -= count
    return [sight] if line == "asked" else []


def answered(sight, words, number, line, files):
    """Returns the sights behind an answer: a name has its number while the kernel holds that, and a new one else."""
    if words[1] == "getattr":
        names = [name for name, its in sight.numbers.items() if its == number]
        file = files[names[0]] if names else "dir 0755 0 2"
        return [sight] if line == f"answer {sight.asks} attr {number} {file}" else []
    name = words[3].split(" ")[-1]
    known = sight.numbers.get(name)
    if words[1] == "lookup" and line == f"answer {sight.asks} entry {known} {files[name]}":
        sight.held[known] = sight.held.get(known, 0) + 1
        return [sight]
    if not sight.held.get(known) and line == f"answer {sight.asks} entry {sight.next} {files[name]}":
        sight.numbers[name], sight.held[sight.next] = sight.next, 1
        return [sight.but(next=sight.next + 1)]
    return []


def seated(sight, wanted, line):
    generation = int(line.split(" ")[1]) if line.startswith("seat ") else 0
    is_next = sight.is_mounted and generation >= max(wanted, sight.generation)
    return [sight.but(generation=generation)] if is_next else []


def step(sight, command, lines, at, files):
    """Returns what a kernel may know behind a command of its script, and which line is the next one."""
    words = command.split(" ", 3)
    if words[0] == "held":
        held = [f"held {number} {count}" for number, count in sorted(sight.held.items()) if count]
        return [(sight, at + len(held))] if lines[at : at + len(held)] == held else []
    if at == len(lines):
        return []
    if words[0] == "idle":
        behind = [sight] if lines[at] == "idle" else []
    elif words[0] == "seat":
        behind = seated(sight, int(words[1]), lines[at])
    else:
        behind = asked(sight, words, lines[at], files)
    return [(it, at + 1) for it in behind]


def check_lines(script, lines, files, ends):
    """Fails where a broker's script doesn't print lines as these, of mounts of which `ends` ended. What is asked is
    answered rightly or lost. Returns how often each number is held in the end."""
    sights = [(Sight(), 0)]
    for command in script:
        before_it = sights
        sights = [
            behind for sight, at in sights for it in before(sight, ends) for behind in step(it, command, lines, at, files)
        ]
        sights = [it for place, it in enumerate(sights) if it not in sights[:place]]
        if not sights:
            raise AssertionError(f"{command!r} can't print {[lines[at : at + 1] for _, at in before_it]}")
    wanted = [sight for sight, at in sights if lines[at:] == ["ended"] and sight.ended == ends]
    if not wanted:
        raise AssertionError(f"the mount did not end {ends} times, or more was printed: {sights}")
    return {number: count for number, count in wanted[0].held.items() if count}
