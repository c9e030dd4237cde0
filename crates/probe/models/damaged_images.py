"""Prints data/damaged.rows: what comes of an image with one byte damaged.

A byte is set to 00, set to ff, or its lowest bit is flipped. `read` tells the image that bytes are, or their first
fault, and `against` what stands against restoring it over the manifest of CHECKOUT; both go by the format alone. A
damaged image is read whole, in two pieces and byte by byte, and is written as the same bytes if it is one. If a daemon
is restored from it, it is handed over and taken over as the same bytes, and tells the attributes of each number.
"""
import hashlib

COMMIT = bytes.fromhex("0123456789abcdef0123456789abcdef01234567")
CHECKOUT = [("dir", 0o755, 0, 1, "src"), ("file", 0o644, 12, 2, "a"), ("file", 0o755, 0, 2, "b"), ("file", 0o644, 7, 1, "README")]
GREATEST = {1: 2**32 - 1, 2: 2**32 - 1, 3: 2**63 - 1, 4: 2**63 - 1}
LAST_FILE = len(CHECKOUT) + 1
END = 2**63 - 1


def checkout_lines():
    """The lines of the manifest."""
    names = {1: ""}
    yield f"commit {COMMIT.hex()}"
    for index, (kind, perm, size, parent, name) in enumerate(CHECKOUT):
        names[index + 2] = names[parent] + name + "/"
        yield f"dir {names[parent]}{name}" if kind == "dir" else f"file {perm:04o} {size} {names[parent]}{name}"


def name_in(version):
    """What names the manifest in a version: its commit, or from version 4 on a digest of its text."""
    text = "".join(f"{line}\n" for line in checkout_lines())
    return COMMIT if version < 4 else hashlib.sha256(text.encode()).digest()[:20]


class Fault(Exception):
    """The first fault of bytes."""


class Reader:
    """Bytes that are read from front to back."""

    def __init__(self, data):
        self.data, self.at = data, 0

    def take(self, count):
        if self.at + count > len(self.data):
            raise Fault("Short")
        self.at += count
        return self.data[self.at - count:self.at]

    def number(self, width=8):
        return int.from_bytes(self.take(width), "big")

    def mark(self):
        mark = self.number(1)
        if mark > 1:
            raise Fault("BadMark")
        return mark


def checked(name):
    """A name, which is 1 to 255 bytes with no slash and no zero, and neither of the two names of dots."""
    if not name or b"/" in name or b"\0" in name or name in (b".", b".."):
        raise Fault("BadName")
    return name


def entry(reader, version, last):
    number = reader.number()
    if number <= (last[0] if last else 1):
        raise Fault("NotRising")
    mark = reader.mark()
    count = reader.number(8 if version >= 3 else 4)
    if count > GREATEST[version]:
        raise Fault("BadMark")
    if mark:
        return number, count, None, reader.number()
    parent = reader.number()
    return number, count, parent, checked(reader.take(reader.number(1)))


def made(reader, _version, last):
    file = reader.number()
    if last and file <= last[0]:
        raise Fault("NotRising")
    mark = reader.mark()
    perm = reader.number(2)
    if perm > 0o7777:
        raise Fault("BadMark")
    return file, "dir" if mark else "file", perm


def link(reader, _version, last):
    parent = reader.number()
    name = reader.take(reader.number(1))
    if last and (parent, name) <= last[:2]:
        raise Fault("NotRising")
    checked(name)
    return parent, name, reader.number() if reader.mark() else None


def members(reader, member, version):
    found = []
    for _ in range(reader.number(4)):
        found.append(member(reader, version, found[-1] if found else None))
    return found


def fields(reader):
    if reader.take(4) != b"EDTK":
        raise Fault("BadMagic")
    version = reader.number(2)
    if version not in GREATEST:
        raise Fault("BadVersion")
    name, generation, number, file = reader.take(20), reader.number(), reader.number(), reader.number()
    lists = [members(reader, member, version) for member in (entry, made, link)]
    if reader.at < len(reader.data):
        raise Fault("Rest")
    parents = {parent for _, _, parent, _ in lists[0] if parent is not None}
    if any(count == 0 and (parent is None or number not in parents) for number, count, parent, _ in lists[0]):
        raise Fault("ZeroUse")
    return version, name, generation, number, file, lists


def read(data):
    """`ok` or the first fault, and the fields of the image if it is one."""
    try:
        return "ok", fields(Reader(data))
    except Fault as fault:
        return fault.args[0], None


def files_of(lists):
    """The files by id: kind, permissions, size; and the names by directory and name. No image here changes a name."""
    files = {1: ("dir", 0o755, 0)}
    names = {}
    for index, (kind, perm, size, parent, name) in enumerate(CHECKOUT):
        files[index + 2] = (kind, perm, size)
        names[parent, name.encode()] = index + 2
    for file, kind, perm in lists[1]:
        files[file] = (kind, perm, 0)
    return files, names


def named(number, entries, names):
    """The file that a number names, or none."""
    if number == 1:
        return 1
    _, parent, name = entries[number]
    if parent is None:
        return name
    above = named(parent, entries, names)
    return names.get((above, name))


def against(image):
    """The first thing that stands against restoring an image, or none."""
    version, name, _, number, file, lists = image
    assert not lists[2]
    if name != name_in(version):
        return "OtherManifest"
    if not LAST_FILE < file <= END:
        return "BadChange 0"
    for index, (each, _, _) in enumerate(lists[1]):
        if not LAST_FILE < each < file:
            return f"BadChange {index + 1}"
    entries = {each: (count, parent, name) for each, count, parent, name in lists[0]}
    files, names = files_of(lists)
    if any(parent not in (None, 1) and parent not in entries for _, parent, _ in entries.values()):
        return "NoParent"
    if any(each == parent for each, (_, parent, _) in entries.items()):
        return "NoLink"
    told = {each: named(each, entries, names) for each in entries}
    linked = set(names.values()) | {1}
    for each, (_, parent, _) in entries.items():
        if told[each] not in files or (parent is None and told[each] in linked):
            return "NoLink"
    if len(set(told.values())) < len(told):
        return "TwoNumbers"
    if not max([1] + list(entries)) < number <= END:
        return "NumberTooHigh"
    return None


def attrs(image):
    """What is told of each number."""
    lists = image[5]
    files, names = files_of(lists)
    entries = {each: (count, parent, name) for each, count, parent, name in lists[0]}
    for each, (_, parent, _) in entries.items():
        kind, perm, size = files[named(each, entries, names)]
        links = 0 if parent is None else 2 if kind == "dir" else 1
        yield f"served ask getattr {each} = attr {each} {kind} {perm:04o} {size} {links}"


def rows_of(data, version):
    """The rows of one damaged image, whose damaged byte has the index {n}."""
    told, image = read(data)
    rows = []
    for call in ("read @damaged", "two {n} @damaged", "each @damaged"):
        rows.append(f"image {call} = {told}")
        if image:
            rows.append(f"image write {image[0]} = @damaged")
    if not image:
        return rows
    fault = against(image)
    if fault:
        return rows + [f"served raise 8 @damaged = {fault}"]
    return rows + ["served raise 8 @damaged = ok", f"served pass 8 1 {version} = yes"] + list(attrs(image))


def image_of(version):
    """The image that is damaged: `src`, `README` with count 3, and a made file that was unlinked."""
    be = lambda value, width=8: value.to_bytes(width, "big")
    count = 8 if version >= 3 else 4
    linked = lambda number, held, name: be(number) + b"\0" + be(held, count) + be(1) + be(len(name), 1) + name
    return (b"EDTK" + be(version, 2) + name_in(version) + be(1) + be(5) + be(7)
            + be(3, 4) + linked(2, 1, b"src") + linked(3, 3, b"README") + be(4) + b"\1" + be(1, count) + be(6)
            + be(1, 4) + be(6) + b"\0" + be(0o600, 2) + be(0, 4))


TURNS = [("00", lambda byte: 0), ("ff", lambda byte: 255), ("with the lowest bit flipped", lambda byte: byte ^ 1)]


def main():
    print("# Images with one byte set to 00, set to ff, or with its lowest bit flipped (models/damaged_images.py). Each is")
    print("# refused, whole, in two pieces and byte by byte, or its bytes are just those that are written for what is read. If a")
    print("# daemon can be restored from it, it is handed over and taken over as the same bytes, and knows each of its numbers.")
    for line in checkout_lines():
        print("|checkout", line)
    for version in (1, 2, 3, 4):
        image = image_of(version)
        for turn, turned in TURNS:
            others = bytes(map(turned, image))
            print(f"\ncase refuses a damaged byte or spells it so: version {version}, {turn}")
            print("text image 0x" + image.hex())
            print("text others 0x" + others.hex())
            print("served serve 8 @checkout = ok")
            runs = []
            for at in range(len(image)):
                rows = rows_of(image[:at] + others[at:at + 1] + image[at + 1:], version)
                if runs and runs[-1][2] == rows:
                    runs[-1][1] = at
                else:
                    runs.append([at, at, rows])
            for first, last, rows in runs:
                print(f"each n {first} {last}\ntext damaged @image[..{{n}}]+@others[{{n}}..{{n+1}}]+@image[{{n+1}}..]")
                print("\n".join(rows) + "\nend")


if __name__ == "__main__":
    main()
