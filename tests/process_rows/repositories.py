"""Repositories of git, made for rows, and what a plain checkout of one has."""
import os
import random
import subprocess

from process_rows.rooms import run_to_end

# What git takes from its surroundings: nothing of the user's, and one author at one moment.
SURROUNDINGS = {
    "PATH": os.environ["PATH"], "HOME": "/nonexistent", "GIT_CONFIG_NOSYSTEM": "1", "LC_ALL": "C",
    "GIT_AUTHOR_NAME": "a", "GIT_AUTHOR_EMAIL": "a@b", "GIT_AUTHOR_DATE": "1700000000 +0000",
    "GIT_COMMITTER_NAME": "a", "GIT_COMMITTER_EMAIL": "a@b", "GIT_COMMITTER_DATE": "1700000000 +0000",
}
# How many files a repository has, and how many of a program without a proof.
FILES, FILES_OF_UNPROVED = 2000, 50
# Names that only their bytes can say: spaces, quotes, a line feed, a tab, a backslash, no text, and the longest.
STRANGE = (b"with a space", b'a "quote"', b"line\nfeed", b"tab\tstop", b"back\\slash", b"no text \xff\xfe", b"n" * 255, b"-n", b"...")
# A program of C whose parts stand in several directories.
SOURCES = {
    "include/parts.h": "int twice(int);\nint thrice(int);\n",
    "src/main.c": '#include <stdio.h>\n#include "parts.h"\nint main(void) { printf("%d %d\\n", twice(21), thrice(14)); return 0; }\n',
    "src/parts/twice.c": '#include "parts.h"\nint twice(int n) { return 2 * n; }\n',
    "src/parts/thrice.c": '#include "parts.h"\nint thrice(int n) { return 3 * n; }\n',
}
# Symbolic links and their targets: to files, to directories, up and down, to nothing, to each other, and the longest.
LINKS = {
    "to_main": "src/main.c", "to_parts": "src/parts", "src/up": "..", "dangling": "no/such/file", "round_a": "round_b",
    "round_b": "round_a", "far": "x/" * 2047 + "y", "src/parts/over": "../../to_main",
}
SUBMODULE = "modules/other"
# What each file of a large directory contains.
LINE = b"one line\n"


def git(folder, *words, **streams):
    """Runs git in a folder, and shows that it succeeds."""
    surroundings = SURROUNDINGS | streams.pop("more", {})
    status, said = run_to_end(["git", "-c", "init.defaultBranch=main", *words], cwd=folder, env=surroundings, **streams)
    if status != 0:
        raise AssertionError(f"git {words} ended with {status}")
    return said


def contents_of(is_proved):
    """Returns the contents of a repository's files, by their paths."""
    dice = random.Random(7)
    contents = {path: text.encode() for path, text in SOURCES.items()}
    for number in range(FILES if is_proved else FILES_OF_UNPROVED):
        lines = (b"%d %x" % (number, dice.getrandbits(64)) for _ in range(int(200 * dice.random() ** 4)))
        text = b"\n".join([*lines, b"needle"] if number % 10 == 0 else lines)
        contents[f"d{number % 40}/e{number % 7}/f{number}"] = text
    contents |= {"empty": b"", "large": dice.randbytes(3_000_000)}
    return contents


def make_repository(room):
    """Makes a repository with one commit in a folder of a row, and a plain checkout of it. Returns both paths."""
    repository, plain = f"{room.path}/repository", f"{room.path}/plain"
    for folder in (repository, plain):
        os.mkdir(folder)
    git(repository, "init", "-q")
    for number, (path, content) in enumerate(contents_of(room.is_proved).items()):
        os.makedirs(os.path.dirname(f"{repository}/{path}"), exist_ok=True)
        with open(f"{repository}/{path}", "wb") as file:
            file.write(content)
            os.fchmod(file.fileno(), 0o755 if number % 9 == 0 else 0o644)
    for name in STRANGE:
        with open(os.fsencode(f"{repository}/") + name, "wb") as file:
            file.write(name)
    for path, target in LINKS.items():
        os.symlink(target, f"{repository}/{path}")
    git(repository, "add", "-A")
    git(repository, "update-index", "--add", "--cacheinfo", f"160000,{'12' * 20},{SUBMODULE}")
    git(repository, "commit", "-q", "-m", "one")
    git(repository, f"--work-tree={plain}", "checkout", "-q", "-f", "HEAD", "--", ".")
    os.makedirs(f"{plain}/{SUBMODULE}", exist_ok=True)
    return repository, plain


def says(folder, *words, **streams):
    """Runs git in a folder, and returns the word that it prints."""
    return git(folder, *words, stdout=subprocess.PIPE, **streams).decode().strip()


def make_directories(room, directories):
    """Makes a bare repository in a folder of a row: its commit has directories with these names of files, by their paths.
    Returns the repository's path."""
    repository = f"{room.path}/directories"
    os.mkdir(repository)
    git(repository, "init", "-q", "--bare")
    room.write("line", LINE)
    blob = says(repository, "hash-object", "-w", f"{room.path}/line")
    lines = (f"100644 {blob}\t{path}/{it}\n" for path, names in directories.items() for it in names)
    room.write("index", "".join(lines).encode())
    with open(f"{room.path}/index", "rb") as file:
        git(repository, "update-index", "--add", "--index-info", stdin=file)
    commit = says(repository, "commit-tree", "-m", "one", says(repository, "write-tree"))
    git(repository, "update-ref", "HEAD", commit)
    return repository
