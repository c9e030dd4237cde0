"""What the files of a checkout contain: a directory with them, and the manifest beside it."""
import os
import random

# The words by which a daemon finds the bytes of files.
FROM_FILES = ("--files", "files")
# Sizes at which pages, READs, answers and what is read ahead end: 4,096, 61,440, 65,512 and 131,072 bytes.
BORDERS = (
    0, 1, 4095, 4096, 4097, 8192, 61_439, 61_440, 61_441, 65_511, 65_512, 65_513, 65_536, 122_880, 131_071, 131_072, 131_073,
    262_144, 300_000,
)
# How many files a tree has, how many of a program without a proof, and the size of the longest.
FILES, FILES_OF_UNPROVED, LONGEST = 2000, 200, 300_000
# What each tenth file ends with.
NEEDLE = b"\nneedle\n"
COMMIT = f"commit {'01' * 20}"


def directories_of(paths):
    """Returns the directories above these paths, each behind the one that it stands in."""
    found = set()
    for path in paths:
        while path := os.path.dirname(path):
            found.add(path)
    return sorted(found)


def write_manifest(room, sizes, modes=()):
    """Writes a manifest of files with these sizes by their paths; `modes` has the permissions that aren't 0644."""
    modes = dict(modes)
    lines = [COMMIT, *(f"dir {it}" for it in directories_of(sizes))]
    lines += [f"file {modes.get(path, 0o644):04o} {size} {path}" for path, size in sizes.items()]
    room.write("m", "".join(f"{it}\n" for it in lines).encode())


def write_files(room, contents, modes=()):
    """Writes files with these contents by their paths, and their manifest. Returns the directory with the files."""
    write_manifest(room, {path: len(content) for path, content in contents.items()}, modes)
    folder = f"{room.path}/files"
    os.mkdir(folder)
    for it in directories_of(contents):
        os.mkdir(f"{folder}/{it}")
    for path, content in contents.items():
        with open(f"{folder}/{path}", "wb") as file:
            file.write(content)
            os.fchmod(file.fileno(), dict(modes).get(path, 0o644))
    return folder


def contents_of(sizes, seed=1):
    """Returns random bytes of these sizes, by paths in directories below others."""
    dice = random.Random(seed)
    return {f"d{at % 40}/e{at % 7}/f{at}": dice.randbytes(size) for at, size in enumerate(sizes)}


def tree_of(room):
    """Returns the contents of a tree: most files are short. Each tenth has the needle at its end, if it is long enough."""
    dice = random.Random(2)
    count = FILES if room.is_proved else FILES_OF_UNPROVED
    sizes = [*BORDERS, *(int(LONGEST * dice.random() ** 6) for _ in range(count - len(BORDERS)))]
    contents = contents_of(sizes)
    for path in [it for it, content in contents.items() if len(content) > len(NEEDLE)][::10]:
        contents[path] = contents[path][: -len(NEEDLE)] + NEEDLE
    return contents
