"""Rows: programs list what stands in the directories of a mount."""
import errno
import itertools
import os
import random
import signal
import subprocess
import tempfile
import threading

from process_rows.checks import WAIT, row, same
from process_rows.getdents import DT_DIR, DT_REG, UNKNOWN_INODE, entries_of, names_of, some_entries, steps
from process_rows.mounted_beside_tmpfs import TMPFS
from process_rows.mounted_ends import mounts_anew
from process_rows.mounted_validity import waits_for_the_daemon
from process_rows.mounts import (
    ASKS_AGAIN, CACHES, DIRECTORIES, FILES, WORK, Mount, all_end, all_work_on, drop_caches, size_of, until,
)
from process_rows.rooms import run_to_end

COMMIT = f"commit {'01' * 20}"
# Names of each permission, and a chain of directories, beside those of the usual checkout.
DEEP = "e/e/e/e/e/e/e"
MODES = (0o644, 0o755)
# What is run in the mount and on tmpfs. Without times, which differ. The order of names is free where no program sorts.
LISTS = (
    "ls -la --time-style=+ d7", "ls -lAR --time-style=+", "ls -p . e e/e m", "ls -d d?/f1* */e", "find e -depth",
    "find . -printf '%y %m %p\\n' | sort", "find . -type d | sort", "find . -type f -perm 0755 -size +0 | sort",
)
# The longest name, and the least room for a step: an entry of 255 bytes takes 280 of getdents64.
LONGEST = 255
LEAST = 280
# How many names stay in a directory that is listed by small steps, and how many takeovers there are meanwhile at least.
STAY, STAY_OF_UNPROVED, TAKEOVERS = 2000, 600, 4
# Makes, moves and removes names beside those that stay.
COME_AND_GO = "mkdir x y; : >z; mv z w; mv x v; rmdir y v; rm w"
LIST = "set -- s*; [ -d . ] && echo $# >/dev/null"


def lines_of(lines):
    """Returns a manifest's text."""
    return "".join(f"{line}\n" for line in (COMMIT, *lines)).encode()


def usual():
    """Returns the directories of a checkout, and its files with their permissions and sizes, by their paths."""
    directories = [WORK, "m", *(f"d{it}" for it in range(DIRECTORIES)), *(DEEP[: 2 * it + 1] for it in range(7))]
    files = {f"d{at}/f{file}": (0o644, size_of(at, file)) for at in range(DIRECTORIES) for file in range(FILES)}
    files |= {f"m/{mode:o}-{size}": (mode, size) for mode in MODES for size in (0, 1, 512, 2**31)}
    files[f"{DEEP}/f"] = (0o755, 7)
    return directories, files


def write_usual(room):
    """Writes the manifest of such a checkout."""
    directories, files = usual()
    lines = [f"dir {it}" for it in directories]
    lines += [f"file {mode:04o} {size} {path}" for path, (mode, size) in files.items()]
    room.write("m", lines_of(lines))


def make_usual(folder):
    """Makes the same files in a folder."""
    directories, files = usual()
    os.chmod(folder, 0o755)
    for it in directories:
        os.mkdir(f"{folder}/{it}", 0o755)
    for it, (mode, size) in files.items():
        with open(f"{folder}/{it}", "wb") as file:
            file.truncate(size)
            os.fchmod(file.fileno(), mode)


def printed_in(folder, script):
    """Returns the lines that a script prints in a folder, without the totals of `ls`, nor what a directory here has no count
    for: its links and its size."""
    child = subprocess.run(["sh", "-c", script], cwd=folder, capture_output=True, check=False, text=True)
    same((child.returncode, child.stderr), (0, ""))
    lines = [it.split() for it in child.stdout.splitlines() if not it.startswith("total ")]
    return [[it[0], it[-1]] if it and it[0].startswith("drwx") else it for it in lines]


def walked(folder):
    """Returns what `os.walk` finds below a folder."""
    return sorted((os.path.relpath(at, folder), sorted(inner), sorted(files)) for at, inner, files in os.walk(folder))


def used_in(folder):
    """Returns the bytes that `du` counts for each path below a folder."""
    child = subprocess.run(["du", "-ab"], cwd=folder, capture_output=True, check=True, text=True)
    return {path: int(size) for size, path in map(str.split, child.stdout.splitlines())}


def usual_sizes():
    """Returns the bytes that stand at each path of the checkout and below it: directories have none themselves."""
    directories, files = usual()
    sizes = {".": 0} | {f"./{it}": 0 for it in directories}
    for path, (_, size) in files.items():
        at = f"./{path}"
        sizes[at] = size
        while at := os.path.dirname(at):
            sizes[at] += size
    return sizes


@row
def programs_list_what_the_manifest_has(room):
    """`ls`, `find`, `du`, a shell's words and `os.walk` tell of a mount what they tell of the same files on tmpfs, before a
    takeover and behind it."""
    write_usual(room)
    with tempfile.TemporaryDirectory(dir=TMPFS) as folder:
        make_usual(folder)
        mount = Mount(room, valid=())
        for _ in range(2):
            for script in LISTS:
                same((script, printed_in(mount.path, script)), (script, printed_in(folder, script)))
            same(walked(mount.path), walked(folder))
            same(used_in(mount.path), usual_sizes())
            mount.take_over_at_rest()
    mount.unmount()


def sized(count):
    """Returns so many names, the last of them as long as a name may be."""
    return [*(f"n{it}" for it in range(count - 1)), "l" * LONGEST] if count else []


def lists_all(directory, names, room=32768):
    """Shows that a listing has each of these names once and nothing else, each behind the one before, after `.` and `..`."""
    entries = entries_of(directory, room)
    same_names(sorted(names_of(entries)), sorted(names))
    rises(entries)


def same_names(got, wanted):
    """Fails where two lists of names differ, and tells the first place where they do."""
    if got != wanted:
        at = next((it for it, (one, other) in enumerate(zip(got, wanted)) if one != other), min(len(got), len(wanted)))
        raise AssertionError(f"{len(got)} names, not {len(wanted)}: {got[at : at + 3]}, not {wanted[at : at + 3]}, from {at} on")


def rises(entries):
    """Shows that each entry stands behind the one before."""
    offsets = [it.offset for it in entries]
    same(offsets == sorted(set(offsets)), True)


def changes_some(directory, names):
    """Makes, moves and removes names in a directory, and returns which it has then."""
    for number in range(100):
        os.mkdir(f"{directory}/made{number}")
    for number in range(0, 100, 3):
        os.rmdir(f"{directory}/made{number}")
    for number in range(1, 100, 3):
        os.rename(f"{directory}/made{number}", f"{directory}/moved{number}")
    for name in names[::7]:
        os.unlink(f"{directory}/{name}")
    made = [f"moved{it}" if it % 3 == 1 else f"made{it}" for it in range(100) if it % 3]
    return made + [it for number, it in enumerate(names) if number % 7]


@row
def each_name_is_listed_once(room):
    """Directories of up to 40,000 names list each once, in steps of any length; so they do once names were made, moved and
    removed, and behind a takeover."""
    counts = (0, 1, 2, 64, 1000, 10_000, 40_000) if room.is_proved else (0, 1, 2, 64, 1000, 10_000)
    # A manifest has a megabyte at most, and the line of a directory is the shorter one.
    lines = [f"dir c{it}" for it in counts]
    lines += [f"{'dir' if it > 1000 else 'file 0644 0'} c{it}/{name}" for it in counts for name in sized(it)]
    room.write("m", lines_of(lines))
    mount = Mount(room)
    for count in counts:
        directory, names = mount.at(f"c{count}"), sized(count)
        lists_all(directory, names)
        if count <= 1000:
            for step in (LEAST, LEAST + 1, 511, 4096, 65_512, 65_536, 1 << 20):
                lists_all(directory, names, step)
            names = changes_some(directory, names)
            lists_all(directory, names)
        mount.take_over()
        lists_all(directory, names)
    mount.counts_what_is_held()
    mount.unmount()


@row
def the_longest_answer_reaches_a_program(room):
    """A directory is listed whole whose first answer has 65,512 bytes where a kernel asks for so many: 2,046 entries of 32
    bytes, and one of 40. So is one that is a byte too long for that."""
    names = [f"n{it:04}" for it in range(3000)]
    for last in ("l" * 16, "l" * 17):
        names[2044] = last
        inner = room.inner()
        inner.write("m", lines_of(f"file 0644 0 {it}" for it in names))
        mount = Mount(inner)
        for step in (4096, 32_768, 65_512, 1 << 20):
            lists_all(mount.path, names, step)
        mount.unmount()


def stays_of(room):
    return [f"s{it}" for it in range(STAY if room.is_proved else STAY_OF_UNPROVED)]


def mounted_beside(room, *options, valid):
    """Mounts a directory whose names stay while others come and go."""
    room.write("m", lines_of(["dir a", *(f"file 0644 0 a/{it}" for it in stays_of(room))]))
    return Mount(room, *options, valid=valid)


def listed_over_takeovers(mount, step):
    """Lists a directory by steps of so many bytes, while daemons take over, and returns its entries."""
    entries, due = [], STAY_OF_UNPROVED // TAKEOVERS
    directory = os.open(mount.at("a"), os.O_RDONLY)
    for more in steps(directory, step):
        entries += more
        if len(entries) > due:
            mount.take_over()
            due += STAY_OF_UNPROVED // TAKEOVERS
    os.close(directory)
    return entries


def stays_while_others_come_and_go(room, workers, valid):
    """Lists a directory by small steps while other programs change and list it and daemons take over. Each name that stays
    is listed once. One that was made anew may come again, since that is another file: it has another position."""
    mount = mounted_beside(room, "--workers", str(workers), valid=valid)
    programs = [room.program_in(it, directory="a") for it in (COME_AND_GO, LIST)]
    for step in (LEAST, 1024):
        all_work_on(programs)
        generation = mount.generation
        entries = listed_over_takeovers(mount, step)
        same(mount.generation >= generation + TAKEOVERS - 1, True)
        same_names([it for it in names_of(entries) if it.startswith("s")], stays_of(room))
        rises(entries)
    all_work_on(programs)
    all_end(programs)
    mount.counts_what_is_held()
    mount.unmount()


@row
def names_that_stay_are_listed_once_with_1_worker(room):
    """A directory is listed by small steps while another program makes, moves and removes names in it and daemons with one
    worker take over: each name that stays is listed once, in order, and none twice."""
    stays_while_others_come_and_go(room, 1, ASKS_AGAIN)


@row
def names_that_stay_are_listed_once_with_4_workers(room):
    """The same with four workers, and a kernel that keeps names and attributes."""
    stays_while_others_come_and_go(room, 4, ())


@row
def a_listing_goes_on_from_each_of_its_positions(room):
    """A program goes back to a position that an entry had (`seekdir`): the listing goes on with the name that followed, also
    behind a takeover, and where the entry itself is gone."""
    mount = mounted_beside(room, valid=ASKS_AGAIN)
    directory = os.open(mount.at("a"), os.O_RDONLY)
    entries = [it for step in steps(directory, 4096) for it in step]
    for turn in range(2):
        for at in range(len(entries) - 2, -1, -37):
            os.lseek(directory, entries[at].offset, os.SEEK_SET)
            same(some_entries(directory, LEAST)[0], entries[at + 1])
            if turn and at > 1:
                os.unlink(mount.at(f"a/{entries[at].name}"))
                os.lseek(directory, entries[at].offset, os.SEEK_SET)
                same(some_entries(directory, LEAST)[0], entries[at + 1])
        os.lseek(directory, entries[-1].offset, os.SEEK_SET)
        same(some_entries(directory, LEAST), [])
        mount.take_over()
    os.close(directory)
    mount.unmount()


@row
def names_that_are_moved_while_they_are_listed_come_once(room):
    """A program moves each name that it lists to another one in the same directory, and removes each third. It gets each of
    them once, since a file keeps its position when it moves there; so the listing ends."""
    mount = mounted_beside(room, valid=())
    directory = os.open(mount.at("a"), os.O_RDONLY)
    found = []
    for entries in steps(directory, 1024):
        for it in (it.name for it in entries if it.kind == DT_REG):
            found.append(it)
            os.rename(mount.at(f"a/{it}"), mount.at(f"a/moved-{it}"))
            if len(found) % 3 == 0:
                os.unlink(mount.at(f"a/moved-{it}"))
        if len(found) % 50 == 0:
            mount.take_over()
    os.close(directory)
    same(found, stays_of(room))
    same(os.listdir(mount.at("a")), [f"moved-{it}" for number, it in enumerate(found, 1) if number % 3])
    mount.counts_what_is_held()
    mount.unmount()


@row
def a_tree_that_is_listed_is_removed(room):
    """`rm -r` removes a tree, also where a daemon takes over meanwhile. A directory that has a name isn't removed by
    `rmdir`."""
    write_usual(room)
    mount = Mount(room, valid=())
    same([error_of_rmdir(mount.at(it)) for it in ("d7", "e", "e/e/e")], [errno.ENOTEMPTY] * 3)
    child = subprocess.Popen(["rm", "-r", *(mount.at(f"d{it}") for it in range(DIRECTORIES))], stderr=subprocess.PIPE)
    for _ in range(3):
        mount.take_over()
    same((child.communicate()[1], child.returncode), (b"", 0))
    same(run_to_end(["rm", "-r", mount.at("e"), mount.at("m")])[0], 0)
    same(os.listdir(mount.path), [WORK])
    mount.counts_what_is_held()
    mount.unmount()


def error_of_rmdir(path):
    """Returns the number of the error that `rmdir` ends by, or 0."""
    try:
        os.rmdir(path)
    except OSError as error:
        return error.errno
    return 0


@row
def a_directory_that_was_removed_lists_nothing(room):
    """A directory that is removed while a shell works in it lists nothing, not even itself, before a takeover and behind
    it."""
    mount = Mount(room)
    for name in ("looked at before", "never listed"):
        directory = mount.at(f"{WORK}/{name}")
        os.mkdir(directory)
        if name.startswith("looked"):
            same(names_of(entries_of(directory)), [])
        held = os.open(directory, os.O_RDONLY)
        os.rmdir(directory)
        for _ in range(2):
            child = subprocess.run(["ls", "-a"], preexec_fn=lambda: os.fchdir(held), capture_output=True, check=False)
            same((child.stdout, child.stderr, child.returncode), (b"", b"", 0))
            mount.take_over()
        os.close(held)
    mount.unmount()


def numbers_told(directory):
    """Returns the numbers that a listing tells of names that were looked at."""
    return {it.name: it.number for it in entries_of(directory) if it.number != UNKNOWN_INODE}


@row
def entries_tell_the_numbers_that_the_kernel_holds(room):
    """An entry tells the number of a file that a program looked at, as `stat` does, before a takeover and behind it. Of any
    other file it tells that it has none."""
    mount = Mount(room)
    directory = mount.at("d5")
    # The kernel drops nothing that a program holds.
    held = [os.open(directory, os.O_PATH)]
    wanted = {".": os.fstat(held[0]).st_ino, "..": 1}
    for number in range(0, FILES, 7):
        held.append(os.open(f"{directory}/f{number}", os.O_PATH))
        wanted[f"f{number}"] = os.fstat(held[-1]).st_ino
        same(numbers_told(directory), wanted)
        mount.take_over()
        same(numbers_told(directory), wanted)
    for it in held:
        os.close(it)
    until(lambda: drop_caches() or len(numbers_told(directory)) == 2, "files that the kernel let go")
    mount.counts_what_is_held()
    mount.unmount()


@row
def a_listing_goes_on_behind_a_name_that_is_gone(room):
    """A program lists a part of a directory, the last name that it got is removed, and another program lists the whole. The
    first one goes on, and gets each name that stays. (Where a kernel keeps listings, it may take the position of a name that
    is gone for the end, if what it keeps fills its last page, as 128 entries of 32 bytes do.)"""
    for count, valid in itertools.product((126, 127, 128, 255), ((), ASKS_AGAIN)):
        names = [f"f{it}" for it in range(count)]
        inner = room.inner()
        inner.write("m", lines_of(["dir a", *(f"file 0644 0 a/{it}" for it in names)]))
        mount = Mount(inner, valid=valid)
        lists_all(mount.at("a"), names)
        directory = os.open(mount.at("a"), os.O_RDONLY)
        entries = some_entries(directory, 256)
        os.unlink(mount.at(f"a/{entries[-1].name}"))
        os.listdir(mount.at("a"))
        entries += [it for step in steps(directory, 256) for it in step]
        os.close(directory)
        same((count, names_of(entries)), (count, names))
        mount.unmount()


@row
def entries_tell_kinds_without_a_look(room):
    """A listing tells which names are directories and which are files, and no number is given out for that. `ls -i` tells the
    numbers of `stat`. (What is counted on is held open, since another row may let the kernel drop what it keeps.)"""
    mount = Mount(room, valid=())
    with os.scandir(mount.path) as found:
        same({it.name for it in found if it.is_dir(follow_symlinks=False)}, {WORK, *(f"d{it}" for it in range(DIRECTORIES))})
    held = {"d5": os.open(mount.at("d5"), os.O_PATH)}
    kinds = {it.name: it.kind for it in entries_of(mount.at("d5"))}
    same(kinds, {".": DT_DIR, "..": DT_DIR} | {f"f{it}": DT_REG for it in range(FILES)})
    same(len(mount.counts_what_is_held()), 1)
    held |= {f"f{it}": os.open(mount.at(f"d5/f{it}"), os.O_PATH) for it in range(FILES)}
    child = run_to_end(["ls", "-i", mount.at("d5")], stdout=subprocess.PIPE)
    for number, name in map(str.split, child[1].decode().splitlines()):
        same(int(number), os.fstat(held[name]).st_ino)
    for it in held.values():
        os.close(it)
    mount.unmount()


@row
def a_listing_is_right_once_caches_are_dropped(room):
    """Once the kernel dropped what it kept, and behind a takeover by a daemon that never looked at a directory, its listing
    has what stands there."""
    write_usual(room)
    wanted = [f"f{it}" for it in range(FILES)]
    mount = Mount(room, valid=())
    for turn in range(6):
        for directory in range(turn % 2, DIRECTORIES, 2):
            lists_all(mount.at(f"d{directory}"), wanted)
        if turn % 2:
            drop_caches()
        else:
            mount.take_over()
        os.mkdir(mount.at(f"d{turn}/made"))
        lists_all(mount.at(f"d{turn}"), [*wanted, "made"])
        os.rmdir(mount.at(f"d{turn}/made"))
    mount.counts_what_is_held()
    mount.unmount()


@row
def a_listing_fails_where_the_daemon_is_killed(room):
    """A daemon is killed while a directory is listed: the listing ends with an error, and not as if nothing were left. The next
    mount lists the whole."""
    mount = Mount(room)
    directory = os.open(mount.at("d5"), os.O_RDONLY)
    same(len(some_entries(directory, LEAST)) < FILES, True)
    mount.daemon.kill()
    mount.broker.printed("dead")
    try:
        same(some_entries(directory, LEAST), "an error")
    except OSError as error:
        same(error.errno in (errno.ENOTCONN, errno.ECONNABORTED), True)
    os.close(directory)
    mounts_anew(room, mount)
    lists_all(mount.at("d5"), [f"f{it}" for it in range(FILES)])
    mount.unmount()


@row
def a_listing_waits_for_a_stopped_daemon(room):
    """A daemon is stopped: a listing waits for it, and is whole once the daemon goes on."""
    mount = Mount(room)
    os.kill(mount.daemon.pid, signal.SIGSTOP)
    listed = []
    lister = threading.Thread(target=lambda: listed.extend(os.listdir(mount.path)))
    lister.start()
    lister.join(0.5)
    same((lister.is_alive(), listed), (True, []))
    os.kill(mount.daemon.pid, signal.SIGCONT)
    lister.join(WAIT)
    same(sorted(listed), sorted([WORK, *(f"d{it}" for it in range(DIRECTORIES))]))
    mount.unmount()


def lists_at_once(room, mount, directory):
    """Shows that a program lists a directory while the daemon is stopped."""
    os.kill(mount.daemon.pid, signal.SIGSTOP)
    program = room.program_in(f"ls {directory} >/dev/null; [ -d {directory} ]")
    program.works_on()
    program.ends()
    os.kill(mount.daemon.pid, signal.SIGCONT)


def listing_waits(room, mount, directory):
    """Shows that a program which lists a directory waits while the daemon is stopped."""
    os.kill(mount.daemon.pid, signal.SIGSTOP)
    waits_for_the_daemon(room, mount, f"ls {directory} >/dev/null")


@row
def a_listing_of_what_nobody_changed_is_kept(room):
    """A directory that was listed to its end is listed again without a request, also behind takeovers. Once something in it
    was made or moved it is asked for each time, until the kernel lets the directory go. So is one of which only a part was
    listed, and each where the kernel keeps nothing."""
    mount = Mount(room, valid=())
    with CACHES:
        names = [f"f{it}" for it in range(FILES)]
        for _ in range(2):
            # A listing makes the time of access old, which `ls` wants.
            lists_all(mount.at("d5"), names)
            os.stat(mount.at("d5"))
        for _ in range(2):
            lists_at_once(room, mount, "d5")
            mount.take_over()
        os.rename(mount.at("d5/f1"), mount.at("d6/moved"))
        names.remove("f1")
        for _ in range(3):
            lists_all(mount.at("d5"), names)
            os.stat(mount.at("d5"))
            listing_waits(room, mount, "d5")
        part = os.open(mount.at("d7"), os.O_RDONLY)
        same(len(some_entries(part, LEAST)) < FILES, True)
        os.close(part)
        listing_waits(room, mount, "d7")
    held = os.stat(mount.at("d5")).st_ino
    until(lambda: drop_caches() or held not in mount.counts_what_is_held(), "a directory that the kernel let go")
    with CACHES:
        for _ in range(2):
            lists_all(mount.at("d5"), names)
            os.stat(mount.at("d5"))
        lists_at_once(room, mount, "d5")
    mount.unmount()
    inner = room.inner()
    mount = Mount(inner)
    for _ in range(2):
        lists_all(mount.at("d5"), [f"f{it}" for it in range(FILES)])
    listing_waits(inner, mount, "d5")
    mount.unmount()


@row
def a_name_that_was_moved_in_is_listed_behind_a_seek(room):
    """A program lists a part of a directory, an older file is moved into that part, and the program begins anew. It gets the
    file, and so it does where it goes back to the entry before it. (A kernel that takes what it kept of both times for one
    listing would leave the file out: it kept the part from before.)"""
    counts = (126, 600)
    lines = [f"dir {it}{count}" for count in counts for it in "ba"]
    lines += [f"file 0644 0 b{count}/older" for count in counts]
    room.write("m", lines_of(lines + [f"file 0644 0 a{count}/n{it:03}" for count in counts for it in range(count)]))
    mount = Mount(room, valid=())
    for count in counts:
        directory = os.open(mount.at(f"a{count}"), os.O_RDONLY)
        same(len(some_entries(directory, 1024)) < count, True)
        os.rename(mount.at(f"b{count}/older"), mount.at(f"a{count}/older"))
        os.lseek(directory, 0, os.SEEK_SET)
        entries = [it for step in steps(directory, 1024) for it in step]
        same(entries[2].name, "older")
        for at in range(len(entries) - 1):
            os.lseek(directory, entries[at].offset, os.SEEK_SET)
            same(some_entries(directory, LEAST)[0].name, entries[at + 1].name)
        os.close(directory)
    mount.unmount()


class Reader:
    """A program that lists a directory by steps, goes back, and begins anew. `there` are the names that stood there when it
    opened the directory or began anew, and stay; `came` those that came or went since."""

    def __init__(self, path):
        self.path = path
        self.directory = os.open(path, os.O_RDONLY)

    def begins(self, there):
        os.lseek(self.directory, 0, os.SEEK_SET)
        self.there, self.came, self.seen, self.positions = set(there), set(), [], [0]
        self.position = 0

    def opens(self, there):
        os.close(self.directory)
        self.directory = os.open(self.path, os.O_RDONLY)
        self.begins(there)

    def goes_back(self, dice):
        self.position = dice.choice(self.positions)
        os.lseek(self.directory, self.position, os.SEEK_SET)
        self.seen = []

    def changes(self, name):
        self.there.discard(name)
        self.came.add(name)

    def reads(self, dice, offsets):
        """Reads some entries, and returns them. At the end each name that stays was given once, if it stands behind where this
        pass began."""
        entries = some_entries(self.directory, dice.choice((LEAST, 1024, 4096, 32_768)))
        offsets.update((it.name, it.offset) for it in entries)
        self.seen += [it.name for it in entries]
        self.positions += [it.offset for it in entries]
        if not entries:
            wanted = {it for it in self.there if not self.position or offsets.get(it, 0) > self.position}
            same(wanted - set(self.seen), set())
        given = [it for it in self.seen if it not in self.came]
        same(sorted(given), sorted(set(given)))
        return entries


def change_by(dice, mount, names, offsets):
    """Makes, moves or removes a name of two directories, as dice choose, and returns which names came or went. A name is never
    made anew, and a file that is moved keeps its position."""
    here, there = dice.sample(sorted(names), 2)
    name, fresh = dice.choice(sorted(names[here])), f"m{next(MADE):03}"
    match dice.choice(("make", "remove", "move", "away", "away", "away")):
        case "make":
            os.close(os.open(mount.at(f"{here}/{fresh}"), os.O_CREAT | os.O_WRONLY, 0o600))
            names[here].add(fresh)
            return {fresh}
        case "remove":
            os.unlink(mount.at(f"{here}/{name}"))
            names[here].remove(name)
            return {name}
        case word:
            to = here if word == "move" else there
            os.rename(mount.at(f"{here}/{name}"), mount.at(f"{to}/{fresh}"))
            names[here].remove(name)
            names[to].add(fresh)
            offsets[fresh] = offsets.get(name, 0)
            return {name, fresh}


MADE = itertools.count()


def turn_by(dice, mount, names, readers, offsets):
    """Lets one of the readers go on, go back or begin anew, or changes a name, as dice choose."""
    reader, there = dice.choice(readers), names[min(names)]
    match dice.randrange(20):
        case 0 | 1:
            reader.begins(there)
        case 2:
            reader.opens(there)
        case 3 | 4 | 5:
            reader.goes_back(dice)
        case 6 | 7:
            changed = change_by(dice, mount, names, offsets)
            for name, it in itertools.product(changed, readers):
                it.changes(name)
        case 8 | 9:
            while reader.reads(dice, offsets):
                pass
        case _:
            reader.reads(dice, offsets)


def read_by_dice(dice, mount, names):
    """Three programs read one directory by turns, while names come, go and move between it and another one."""
    offsets = {}
    readers = [Reader(mount.at(min(names))) for _ in range(3)]
    for it in readers:
        it.begins(names[min(names)])
    for _ in range(50):
        turn_by(dice, mount, names, readers, offsets)
    for it in readers:
        os.close(it.directory)
    for it in names:
        lists_all(mount.at(it), names[it])
        lists_all(mount.at(it), names[it])


@row
def readers_that_overlap_get_each_name_that_stays(room):
    """Three programs list one directory by steps of any length, go back and begin anew, by dice, while names come, go and
    move, in forty directories one after another. Daemons take over, and the kernel drops what it keeps. Whoever comes to the
    end got each name that stayed, and none twice."""
    counts = dict(zip(range(40), itertools.cycle((20, 60, 126, 250))))
    # The files of two directories by turns, so that one that is moved comes to stand between others.
    lines = [f"dir {it}{at}" for at in counts for it in "ab"]
    lines += [f"file 0644 0 {it}{at}/{it}{number:03}" for at, count in counts.items() for number in range(count) for it in "ab"]
    room.write("m", lines_of(lines))
    mount = Mount(room, valid=())
    for at, count in counts.items():
        read_by_dice(random.Random(at), mount, {f"{it}{at}": {f"{it}{number:03}" for number in range(count)} for it in "ab"})
        if at % 8 == 7:
            mount.take_over()
            drop_caches(with_pages=True)
    mount.counts_what_is_held()
    mount.unmount()


@row
def many_handles_of_one_directory_are_closed_in_any_order(room):
    """A directory is opened 64 times, also by handles that were copied; each is read to its end by steps, and closed, in an
    order of its own. Each gets every name, the copies together."""
    dice = random.Random(5)
    mount = mounted_beside(room, valid=())
    for _ in range(2):
        handles = [os.open(mount.at("a"), os.O_RDONLY) for _ in range(64)]
        given = {it: [] for it in handles}
        while handles:
            it = dice.choice(handles)
            copy = os.dup(it)
            entries = some_entries(dice.choice((it, copy)), 16_384)
            os.close(copy)
            given[it] += entries
            if not entries:
                same(names_of(given[it]), stays_of(room))
                os.close(it)
                handles.remove(it)
        mount.take_over()
    mount.unmount()


@row
def a_kept_listing_tells_the_numbers_of_its_time(room):
    """A listing that is kept tells the numbers that the kernel held when it asked: none of a file that a program looks at since.
    `ls`, `du`, `tar` and `rm -r` make of it what they do elsewhere. `find -inum` finds a file by its number only once the
    listing is asked for again."""
    names = [f"f{it}" for it in range(FILES)]
    room.write("m", lines_of(["dir d", "dir e", *(f"file 0644 0 {at}/{it}" for at in "de" for it in names)]))
    mount = Mount(room, valid=())
    with CACHES:
        lists_all(mount.at("d"), names)
        held = {it: os.open(mount.at(f"d/{it}"), os.O_PATH) for it in names}
        same(numbers_told(mount.at("d")).keys() - {".", ".."}, set())
        number = os.fstat(held["f5"]).st_ino
        found = ["find", mount.at("d"), "-inum", str(number)]
        same(run_to_end(found, stdout=subprocess.PIPE)[1], b"")
        for script in ("ls d", "find d -name f5", "du -a d", "tar c d | tar t"):
            child = run_to_end(["sh", "-c", script], cwd=mount.path, stdout=subprocess.PIPE)
            same((script, child[0], child[1].decode().count("f5\n")), (script, 0, 1))
    os.mkdir(mount.at("d/new"))
    same(run_to_end(found, stdout=subprocess.PIPE)[1].decode(), f"{mount.at('d/f5')}\n")
    for it in held.values():
        os.close(it)
    for it in "de":
        lists_all(mount.at(it), [*names, *(["new"] if it == "d" else [])])
        same(run_to_end(["rm", "-r", mount.at(it)])[0], 0)
    mount.counts_what_is_held()
    mount.unmount()
