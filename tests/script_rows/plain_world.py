"""A plain world: what a script prints, by lists and dictionaries as docs/SCRIPTS.md and docs/TAKEOVER.md describe it.

It knows nothing of refused memory, of a backing that fails, and of limits. Models make their rows with it.
"""
PART = 4096
# What stands for the number of a file that has none, and the most bytes that an answer and a target may have.
UNKNOWN, MOST, LONGEST_TARGET = 4294967295, 65512, 4095


class Refused(Exception):
    """The cause for which an event is refused."""


class Served:
    """What one daemon serves: a tree of files, and the numbers that it gave with their counts. A copy is changed, never what
    others share."""

    def __init__(self, manifest):
        self.files, self.links, self.made = {1: ("dir", "0755", 0)}, {}, []
        paths = {"": 1}
        for file, line in enumerate(manifest[1:], 2):
            self.files[file], path = self.read_line(line)
            above, _, name = path.rpartition("/")
            self.links[paths[above], name] = paths[path] = file
        self.first_links, self.places = dict(self.links), {file: place for place, file in self.links.items()}
        self.next_file, self.next_number = len(manifest) + 1, 2
        self.numbers, self.counts, self.number_of = {1: 1}, {}, {1: 1}

    @staticmethod
    def read_line(line):
        """Returns what a line of a manifest says of a file, and the file's path."""
        word, rest = line.split(" ", 1)
        if word == "dir":
            return ("dir", "0755", 0), rest
        mode, size, path = rest.split(" ", 2) if word == "file" else ("0777", *rest.split(" ", 1))
        return (word, mode, int(size)), path

    def copy(self):
        other = Served.__new__(Served)
        for name, it in vars(self).items():
            setattr(other, name, it if isinstance(it, int) or name == "first_links" else it.copy())
        return other

    # ---- the tree

    def kind(self, file):
        return self.files[file][0]

    def is_gone(self, file):
        """Returns whether a file has no name, and is not the root."""
        return file != 1 and file not in self.places

    def is_empty(self, directory):
        return all(place[0] != directory for place in self.links)

    def is_at_or_above(self, file, other):
        while other != file and other in self.places:
            other = self.places[other][0]
        return other == file

    def put(self, file, place):
        self.links[place], self.places[file] = file, place

    def take(self, place):
        del self.places[self.links.pop(place)]

    def attributes(self, file):
        kind, permissions, size = self.files[file]
        links = 0 if self.is_gone(file) else 2 if kind == "dir" else 1
        return f"{kind} {permissions} {size} {links}"

    # ---- numbers

    def counted(self, file):
        """Returns the number of a file, which is counted once more."""
        if file not in self.number_of:
            self.number_of[file], self.numbers[self.next_number] = self.next_number, file
            self.counts[self.next_number] = 0
            self.next_number += 1
        number = self.number_of[file]
        self.counts[number] += 1
        return number

    def live_number(self, file):
        """Returns the number by which a file is counted, or UNKNOWN."""
        number = self.number_of.get(file)
        return number if number == 1 or self.counts.get(number) else UNKNOWN

    def strike(self):
        """Drops each number that counts 0 and is not kept for another one in its directory."""
        useless = True
        while useless:
            kept = {self.places[file][0] for number, file in self.numbers.items() if file in self.places}
            useless = [number for number, count in self.counts.items() if count == 0 and self.numbers[number] not in kept]
            for number in useless:
                del self.counts[number], self.number_of[self.numbers.pop(number)]

    def forget(self, number, times):
        self.counts[number] -= times
        self.strike()
        return "Lowered" if number in self.counts else "Dropped"

    # ---- the image

    def image_length(self, version):
        """Returns the length of the image, by the table of docs/IMAGE.md."""
        wide = 4 if version >= 3 else 0
        length = 54 + 4 + 4 + 11 * len(self.made)
        for number in self.counts:
            place = self.places.get(self.numbers[number])
            length += wide + (21 if place is None else 22 + len(place[1]))
        for place in {*self.links, *self.first_links}:
            if self.links.get(place) != self.first_links.get(place):
                length += len(place[1]) + (18 if place in self.links else 10)
        return length


# ---- requests


class Error(Exception):
    """The error that an ask is answered with."""


def is_directory(served, number):
    if served.kind(served.numbers[number]) != "dir":
        raise Error("ENOTDIR")
    return served.numbers[number]


def found(served, directory, name):
    if (directory, name) not in served.links:
        raise Error("ENOENT")
    return served.links[directory, name]


def look_up(served, number, name):
    file = found(served, is_directory(served, number), name)
    return f"entry {served.counted(file)} {served.attributes(file)}"


def make(served, kind, number, permissions, name):
    directory = is_directory(served, number)
    if served.is_gone(directory):
        raise Error("ENOENT")
    if (directory, name) in served.links:
        raise Error("EEXIST")
    file = served.next_file
    served.next_file += 1
    served.files[file] = (kind, permissions, 0)
    served.made.append(file)
    served.put(file, (directory, name))
    word = "opened" if kind == "file" else "entry"
    return f"{word} {served.counted(file)} {served.attributes(file)}"


def unlink(served, number, name):
    directory = is_directory(served, number)
    if served.kind(found(served, directory, name)) == "dir":
        raise Error("EISDIR")
    served.take((directory, name))
    return "done"


def remove(served, number, name):
    directory = is_directory(served, number)
    file = found(served, directory, name)
    if served.kind(file) != "dir":
        raise Error("ENOTDIR")
    if not served.is_empty(file):
        raise Error("ENOTEMPTY")
    served.take((directory, name))
    return "done"


def rename(served, number, to_number, names):
    name, to_name = names.split("/")
    directory, to = is_directory(served, number), is_directory(served, to_number)
    file, there = found(served, directory, name), served.links.get((to, to_name))
    if served.is_gone(to):
        raise Error("ENOENT")
    if served.kind(file) == "dir" and served.is_at_or_above(file, to):
        raise Error("EINVAL")
    if there == file:
        return "done"
    if there is not None:
        if (served.kind(file) == "dir") != (served.kind(there) == "dir"):
            raise Error("EISDIR" if served.kind(there) == "dir" else "ENOTDIR")
        if not served.is_empty(there):
            raise Error("ENOTEMPTY")
        served.take((to, to_name))
    served.take((directory, name))
    served.put(file, (to, to_name))
    return "done"


def read_file(served, number, offset, size):
    file = served.numbers[number]
    kind, _, length = served.files[file]
    if kind == "dir":
        raise Error("EISDIR")
    if kind == "link" or size > MOST:
        raise Error("EINVAL")
    return f"extent {file} {offset} {min(size, max(length - offset, 0))}"


def read_link(served, number):
    file = served.numbers[number]
    kind, _, length = served.files[file]
    if kind != "link":
        raise Error("EINVAL")
    if length > LONGEST_TARGET:
        raise Error("ENAMETOOLONG")
    return f"extent {file} 0 {length}"


def entries_of(served, directory):
    """Returns what stands in a directory: the position, the file and the name of each entry."""
    if served.is_gone(directory):
        return []
    above = served.places[directory][0] if directory != 1 else 1
    children = sorted((file, name) for (parent, name), file in served.links.items() if parent == directory)
    return [(0, directory, "."), (1, above, ".."), *((file, file, name) for file, name in children)]


def entry_length(name):
    """Returns how many bytes an entry has."""
    return (24 + len(name.encode()) + 7) // 8 * 8


def listed(served, number, offset, size):
    """Returns what a directory lists: of each entry the number, the next offset, the kind and the name."""
    entries, room = [], min(size, MOST)
    for position, file, name in entries_of(served, is_directory(served, number)):
        if position < offset:
            continue
        room -= entry_length(name)
        if room < 0:
            break
        entries.append((served.live_number(file), position + 1, served.kind(file), name))
    return entries


def list_directory(served, number, offset, size):
    entries = listed(served, number, offset, size)
    lines = (f"listed {file} {following} {kind} {name}" for file, following, kind, name in entries)
    return "\n".join([f"listing {len(entries)}", *lines])


def numbers_of(words):
    """Returns the numbers that a request is about."""
    if words[0] == "rename":
        return [int(words[1]), int(words[2])]
    return [int(words[2 if words[0] == "other" else 1])]


# How many spaces a request with a name has in front of it.
SPACES = {"lookup": 2, "create": 3, "mkdir": 3, "unlink": 2, "rmdir": 2, "rename": 3}


def request_words(text):
    """Returns the words of a request: a name may have spaces."""
    return text.split(" ", SPACES.get(text.split(" ", 1)[0], -1))


def answered(served, words):
    """Returns the answer to an ask."""
    numbers = numbers_of(words)
    if any(number not in served.numbers for number in numbers):
        return "error ESTALE"
    deeds = {
        "lookup": lambda: look_up(served, numbers[0], words[2]),
        "create": lambda: make(served, "file", numbers[0], words[2], words[3]),
        "mkdir": lambda: make(served, "dir", numbers[0], words[2], words[3]),
        "unlink": lambda: unlink(served, numbers[0], words[2]),
        "rmdir": lambda: remove(served, numbers[0], words[2]),
        "rename": lambda: rename(served, *numbers, words[3]),
        "getattr": lambda: f"attr {numbers[0]} {served.attributes(served.numbers[numbers[0]])}",
        "readlink": lambda: read_link(served, numbers[0]),
        "read": lambda: read_file(served, *map(int, words[1:])),
        "readdir": lambda: list_directory(served, *map(int, words[1:])),
        "other": lambda: "error ENOSYS",
    }
    try:
        answer = deeds[words[0]]()
    except Error as error:
        return f"error {error}"
    if words[0] in ("unlink", "rmdir", "rename"):
        served.strike()
    return answer


def given_by(answer):
    """Returns the number that an answer gives out, or none."""
    words = answer.split(" ")
    return int(words[1]) if words[0] in ("entry", "opened") else None


# ---- the world


class Daemon:
    """A daemon with its phase: a word, and what belongs to it by name."""

    def __init__(self, versions):
        self.versions, self.phase, self.served, self.sessions = versions, "Waiting", None, 0
        self.hand, self.unposted = [], []
        self.generation = self.session = self.version = self.next_part = self.parts = None

    def copy(self):
        other = Daemon.__new__(Daemon)
        vars(other).update(vars(self))
        other.hand, other.unposted = list(self.hand), list(self.unposted)
        return other

    def leave(self):
        self.phase, self.served, self.hand, self.unposted = "Gone", None, [], []


class World:
    """A broker and its daemons, with all messages."""

    def __init__(self, manifest):
        self.manifest, self.daemons, self.messages = manifest, [], []
        self.seat, self.generation, self.unique, self.held = None, 0, 1, {}
        self.asks, self.forgets, self.posted = [], [], []

    def copy(self):
        other = World.__new__(World)
        vars(other).update(vars(self))
        other.daemons, other.messages = [it.copy() for it in self.daemons], list(self.messages)
        other.held, other.asks, other.forgets = dict(self.held), list(self.asks), list(self.forgets)
        other.posted = list(self.posted)
        return other

    def play(self, line):
        """Lets an event happen, and returns the lines that it prints."""
        word, _, rest = line.partition(" ")
        try:
            told = getattr(self, word)(rest)
        except Refused as cause:
            told = f"refused {cause}"
        return told if isinstance(told, list) else told.split("\n")

    def daemon(self, word):
        if not 1 <= int(word) <= len(self.daemons):
            raise Refused("NoDaemon")
        return self.daemons[int(word) - 1]

    def say(self, *message):
        self.messages.append(message)
        return f"said {len(self.messages)} {' '.join(str(word) for word in message)}"

    # ---- the kernel and the broker

    def issue(self, rest):
        words = request_words(rest)
        if self.seat is None:
            raise Refused("NotMounted")
        if words[0] == "forget":
            number, times = int(words[1]), int(words[2])
            if times == 0 or self.held.get(number, 0) < times:
                raise Refused("BadForget")
            self.held[number] -= times
            self.forgets.append((number, times))
            return "asked"
        if any(number != 1 and not self.held.get(number) for number in numbers_of(words)):
            raise Refused("NotHeld")
        self.asks.append((self.unique, words))
        self.unique += 1
        return f"asked {self.unique - 1}"

    def take(self, rest):
        daemon = self.daemon(rest)
        if daemon.phase not in ("Serving", "Draining"):
            raise Refused("WrongPhase")
        if self.asks and len(self.forgets) < 256:
            daemon.hand.append(self.asks.pop(0))
            return f"took {daemon.hand[-1][0]}"
        if not self.forgets:
            raise Refused("Empty")
        taken, self.forgets = self.forgets[:256], self.forgets[256:]
        daemon.hand += [(None, it) for it in taken]
        return f"took forgets {len(taken)}"

    def work(self, rest):
        daemon, position = self.daemon(rest.split(" ")[0]), int(rest.split(" ")[1])
        if not 1 <= position <= len(daemon.hand):
            raise Refused("NoSuch")
        unique, what = daemon.hand.pop(position - 1)
        daemon.served = daemon.served.copy()
        if unique is None:
            return f"forgot {daemon.served.forget(*what)}"
        daemon.unposted.append((unique, answered(daemon.served, what)))
        return "made {} {}".format(*daemon.unposted[-1])

    def post(self, rest):
        daemon, position = self.daemon(rest.split(" ")[0]), int(rest.split(" ")[1])
        if not 1 <= position <= len(daemon.unposted):
            raise Refused("NoSuch")
        self.posted.append(daemon.unposted.pop(position - 1))
        return f"posted {self.posted[-1][0]}"

    def deliver(self, _rest):
        if not self.posted:
            raise Refused("Empty")
        unique, answer = self.posted.pop(0)
        number = given_by(answer)
        if number:
            self.held[number] = self.held.get(number, 0) + 1
        return f"answer {unique} {answer}"

    def do(self, rest):
        told = self.issue(rest)
        steps = [("take", ""), ("work", " 1"), ("post", " 1"), ("deliver", "")]
        for step, position in steps[: 2 if rest.startswith("forget") else 4]:
            told = getattr(self, step)(f"{self.seat}{position}")
        return told

    def show(self, _rest):
        if self.seat is None:
            return "seat none"
        daemon = self.daemons[self.seat - 1]
        served, forgets = daemon.served, [*self.forgets, *(what for unique, what in daemon.hand if unique is None)]
        replies = [given_by(answer) for _, answer in [*daemon.unposted, *self.posted]]
        told = [f"seat {self.generation} {self.seat} next {served.next_number}"]
        for number in sorted(served.counts):
            file = served.numbers[number]
            above, name = served.places.get(file, (None, None))
            place = f"unlinked {file}" if above is None else f"at {served.number_of[above]} {name}"
            up = sum(times for other, times in forgets if other == number)
            counts = f"held {self.held.get(number, 0)} up {up} down {replies.count(number)} count {served.counts[number]}"
            told.append(f"number {number} {counts} {place}")
        return told

    # ---- daemons

    def start(self, rest):
        self.daemons.append(Daemon([int(word) for word in rest.split()] or [1]))
        self.say("offer", len(self.daemons))
        return f"daemon {len(self.daemons)}"

    def seat_goes_to(self, rest, word):
        daemon = self.daemon(rest)
        self.generation, self.seat = self.generation + 1, int(rest)
        daemon.phase, daemon.generation = "Serving", self.generation
        return f"{word} {self.generation}"

    def mount(self, rest):
        daemon = self.daemon(rest)
        if daemon.phase != "Waiting":
            raise Refused("WrongPhase")
        if self.seat is not None:
            raise Refused("Seated")
        daemon.served = Served(self.manifest)
        return self.seat_goes_to(rest, "mounted")

    def claim(self, rest):
        daemon = self.daemon(rest)
        if daemon.phase != "Holding":
            raise Refused("WrongPhase")
        if self.seat is None:
            daemon.leave()
            raise Refused("Ended")
        if self.generation != daemon.generation:
            daemon.leave()
            raise Refused(f"Stale {self.generation}")
        return self.seat_goes_to(rest, "claimed")

    def crash(self, rest):
        self.daemon(rest).leave()
        if self.seat == int(rest):
            self.seat, self.held, self.asks, self.forgets, self.posted = None, {}, [], [], []
        return "crashed"

    def drained(self, rest):
        daemon = self.daemon(rest)
        if daemon.phase != "Draining":
            raise Refused("WrongPhase")
        if daemon.hand or daemon.unposted:
            raise Refused(f"Undrained {len(daemon.hand)} {len(daemon.unposted)}")
        daemon.phase = "Pinged"
        return self.say("ready", daemon.session, daemon.generation)

    def giveup(self, rest):
        daemon = self.daemon(rest)
        if daemon.phase in ("Draining", "Pinged", "Handed"):
            daemon.phase = "Holding" if daemon.phase == "Handed" else "Serving"
            return self.say("failed", daemon.session)
        if daemon.phase in ("Waiting", "Chosen", "Reading"):
            daemon.leave()
            return "heard"
        return "ignored"

    def hear(self, rest):
        daemon, position = self.daemon(rest.split(" ")[0]), int(rest.split(" ")[1])
        if not 1 <= position <= len(self.messages):
            raise Refused("NoSuch")
        word, *rest = self.messages[position - 1]
        return getattr(self, f"hear_{word}")(daemon, *rest) or "ignored"

    def hear_offer(self, daemon, other):
        common = [version for version in self.daemons[other - 1].versions if version in daemon.versions]
        if daemon.phase in ("Draining", "Pinged", "Handed"):
            return self.say("busy")
        if daemon.phase != "Serving":
            return None
        if not common:
            return self.say("nocommon")
        daemon.sessions += 1
        daemon.phase, daemon.session, daemon.version = "Draining", daemon.sessions, max(common)
        return self.say("choice", daemon.session, daemon.version)

    def hear_choice(self, daemon, session, version):
        if daemon.phase != "Waiting" or version not in daemon.versions:
            return None
        daemon.phase, daemon.session, daemon.version = "Chosen", session, version
        return "heard"

    def hear_nocommon(self, daemon):
        if daemon.phase != "Waiting":
            return None
        daemon.leave()
        return "heard"

    hear_busy = hear_nocommon

    def hear_ready(self, daemon, session, _generation):
        if daemon.phase != "Chosen" or daemon.session != session:
            return None
        return self.say("pong", session)

    def hear_pong(self, daemon, session):
        if daemon.phase != "Pinged" or daemon.session != session:
            return None
        length, generation = daemon.served.image_length(daemon.version), daemon.generation
        daemon.phase, image = "Handed", daemon.served
        if daemon.version == 1:
            told = self.say("data", session, generation, length)
            self.messages[-1] = ("data", session, generation, image)
            return told
        parts, first = -(-length // PART), len(self.messages) + 1
        self.messages += [("part", session, generation, part, parts, image) for part in range(1, parts + 1)]
        return f"said {first} parts {session} {generation} {parts} {length}"

    def hear_data(self, daemon, session, generation, image):
        if daemon.phase != "Chosen" or daemon.session != session or daemon.version != 1:
            return None
        daemon.phase, daemon.generation, daemon.served = "Holding", generation, image
        return "heard"

    def hear_part(self, daemon, session, generation, part, parts, image):
        if daemon.phase == "Chosen" and daemon.session == session and daemon.version > 1 and part == 1:
            daemon.generation, daemon.parts = generation, parts
        elif daemon.phase != "Reading" or daemon.session != session or daemon.next_part != part:
            return None
        elif (daemon.generation, daemon.parts) != (generation, parts):
            return None
        daemon.phase, daemon.next_part = "Reading", part + 1
        if part == parts:
            daemon.phase, daemon.served = "Holding", image
        return "heard"

    def hear_failed(self, daemon, session):
        if daemon.session != session or daemon.phase not in ("Chosen", "Reading", "Draining", "Pinged", "Handed"):
            return None
        if daemon.phase in ("Chosen", "Reading"):
            daemon.leave()
        else:
            daemon.phase = "Holding" if daemon.phase == "Handed" else "Serving"
        return "heard"


# ---- rows


class Script:
    """A case whose rows are printed as a plain world makes its events."""

    def __init__(self, title, name, manifest):
        self.world = World(manifest)
        print(f"\ncase {title}\nmanifest @{name}")

    def play(self, *lines):
        """Prints the rows of events, and returns what the last one prints first."""
        for line in lines:
            told = self.world.play(line)
            print("\n= ".join([f"{line} = {told[0]}", *told[1:]]))
        return told[0]


def print_text(name, lines):
    """Prints the rows of a text."""
    for line in lines:
        print(f"|{name} {line}")
