"""Rows: large directories of a commit are listed while other programs change them, and a file of a gigabyte is read."""
import os
import random
import threading

from process_rows.checks import WAIT, row, same
from process_rows.contents import BORDERS, FROM_FILES, write_manifest
from process_rows.getdents import DT_REG, entries_of, names_of, steps
from process_rows.mounted_listings import COME_AND_GO, LEAST, lists_all, rises, same_names
from process_rows.mounted_reads import read_at
from process_rows.mounts import ASKS_AGAIN, Mount, all_end, all_work_on, drop_caches
from process_rows.repositories import LINE, make_directories
from process_rows.rooms import run_to_end

# How many names the directories of a commit have, and those for a program without a proof.
COUNTS, COUNTS_OF_UNPROVED = (1, 64, 10_000, 100_000), (1, 64, 3000)
# How many steps a listing takes at least, where it has names enough, and how many takeovers there are within one.
STEPS, WITHIN = 32, 4
# The bytes that an entry takes whose name has seven letters, and the lengths of steps in which directories are listed.
ENTRY, STEP_LENGTHS = 32, (LEAST, 4096, 32_768, 1 << 20)
# The size of a large file, and of one for a program without a proof. A mark stands at each so many bytes: so at any place
# within a page and within a READ.
HUGE, HUGE_OF_UNPROVED, BETWEEN_MARKS = 1 << 30, 1 << 26, 1_000_003
# The sizes of reads near marks, how many there are, and how many takeovers below them.
READS, TIMES, TIMES_OF_UNPROVED, TAKEOVERS = (1, 4096, 61_440, 61_441, 1 << 20, 3 << 20), 1000, 100, 5
WHOLE = 'cmp large "$1" >&2'


def names_of_directory(count):
    """Returns the names of a directory, in the order in which a commit has them."""
    return [f"n{it:06}" for it in range(count)]


def going(names):
    """Returns the names that are removed while a directory is listed."""
    return names[5::10]


def staying(count):
    """Returns the names of a directory that are not removed."""
    return [it for number, it in enumerate(names_of_directory(count)) if number % 10 != 5]


def mounted_directories(room, *options, valid):
    """Mounts a commit with a directory of each count of names. Returns the mount and the counts."""
    counts = COUNTS if room.is_proved else COUNTS_OF_UNPROVED
    repository = make_directories(room, {f"c{it}": names_of_directory(it) for it in counts})
    return Mount(room, *options, valid=valid, tree=("--git", repository)), counts


def lists_directory(room, path, count):
    """Shows that a directory lists its names in steps of any length, each as a file, and that `ls` does."""
    names = names_of_directory(count)
    for step in STEP_LENGTHS:
        lists_all(path, names, step)
    same({it.kind for it in entries_of(path)[2:]}, {DT_REG})
    room.write("names", "".join(f"{it}\n" for it in names).encode())
    same(run_to_end(["sh", "-c", 'LC_ALL=C ls "$1" | cmp - "$2"', "sh", path, f"{room.path}/names"])[0], 0)


@row
def directories_of_a_commit_list_each_name_once(room):
    """Directories of 1, 64, 10,000 and 100,000 names of a commit list each once and as a file, by steps from 280 bytes to a
    megabyte, before a takeover and behind it. So does `ls`. The last file of each is read."""
    mount, counts = mounted_directories(room, valid=())
    for _ in range(2):
        for count in counts:
            lists_directory(room, mount.at(f"c{count}"), count)
            with open(mount.at(f"c{count}/{names_of_directory(count)[-1]}"), "rb") as file:
                same(file.read(), LINE)
        drop_caches(with_pages=True)
        mount.take_over()
    mount.counts_what_is_held()
    mount.unmount()


def removes(path, names, faults):
    """Removes names from a directory, in any order."""
    try:
        for it in random.Random(len(names)).sample(names, len(names)):
            os.unlink(f"{path}/{it}")
    except OSError as error:
        faults.append(repr(error))


def listed_over_takeovers(mount, path, count):
    """Lists a directory of so many names by steps, with takeovers behind some of them, and returns its entries."""
    entries, due, generation = [], 1, mount.generation
    directory = os.open(path, os.O_RDONLY | os.O_DIRECTORY)
    for more in steps(directory, min(32_768, max(LEAST, count * ENTRY // STEPS))):
        entries += more
        if len(entries) >= due:
            mount.take_over()
            due = len(entries) + max(1, count // WITHIN)
    os.close(directory)
    same(mount.generation >= generation + min(count, WITHIN), True)
    return entries


def lists_below_changes(room, mount, count):
    """Lists a directory while a program creates and moves names in it, another one removes a tenth of its names, and daemons
    take over. Each name that stays is listed once, in order; once the changes are over, nothing else is."""
    names, path, faults = names_of_directory(count), mount.at(f"c{count}"), []
    goes, stays = set(going(names)), staying(count)
    program = room.program_in(COME_AND_GO, directory=f"c{count}")
    remover = threading.Thread(target=removes, args=(path, going(names), faults))
    remover.start()
    entries = listed_over_takeovers(mount, path, count)
    same_names([it for it in names_of(entries) if it.startswith("n") and it not in goes], stays)
    rises(entries)
    remover.join(3 * WAIT)
    same((remover.is_alive(), faults), (False, []))
    all_end([program])
    lists_all(path, stays)


def lists_all_below_changes(room, workers, valid):
    """Lists directories of each count of names while they change, and all of them again behind one takeover more."""
    mount, counts = mounted_directories(room, "--workers", str(workers), valid=valid)
    for count in counts:
        lists_below_changes(room, mount, count)
    mount.take_over()
    for count in counts:
        lists_all(mount.at(f"c{count}"), staying(count))
    mount.counts_what_is_held()
    mount.unmount()


@row
def a_commit_is_listed_below_changes_with_1_worker(room):
    """Directories of 1, 64, 10,000 and 100,000 names of a commit are listed while other programs create, move and remove names
    in them and daemons with one worker take over: each name that stays is listed once."""
    lists_all_below_changes(room, 1, ASKS_AGAIN)


@row
def a_commit_is_listed_below_changes_with_4_workers(room):
    """The same with four workers, and a kernel that keeps what it is told."""
    lists_all_below_changes(room, 4, ())


def mark_at(offset):
    """Returns the mark that stands at an offset of a large file."""
    return b"<%d>" % offset


def write_huge(room):
    """Writes a large file that is a hole but for its marks and its end, and its manifest. Returns its path and its size."""
    size = HUGE if room.is_proved else HUGE_OF_UNPROVED
    write_manifest(room, {"large": size})
    os.mkdir(f"{room.path}/files")
    path = f"{room.path}/files/large"
    with open(path, "wb") as file:
        file.truncate(size)
        for offset in (*range(0, size - 100, BETWEEN_MARKS), size - len(mark_at(size - 20))):
            file.seek(offset)
            file.write(mark_at(offset))
    return path, size


def reads_near_marks(path, other, flags, seed, times):
    """Reads a file at random places that have marks or end near one, near the borders of pages and READs, and near its end,
    and compares with another file."""
    dice = random.Random(seed)
    file, wanted = os.open(path, os.O_RDONLY | flags), os.open(other, os.O_RDONLY)
    size = os.fstat(wanted).st_size
    for _ in range(times):
        near = dice.choice((*BORDERS, size, dice.randrange(size // BETWEEN_MARKS) * BETWEEN_MARKS))
        many = dice.choice(READS)
        offset = max(0, near - dice.choice((0, many, dice.randrange(many + 1))) + dice.randint(-2, 2))
        if read_at(file, many, offset) != os.pread(wanted, many, offset):
            raise AssertionError(f"{path}, {flags}: {many} bytes at {offset} are others")
    os.close(file)
    os.close(wanted)


def huge_is_read(room, workers):
    """Has programs read a large file, whole and in parts, while daemons take over and the kernel drops what it keeps."""
    other, size = write_huge(room)
    mount = Mount(room, *FROM_FILES, "--workers", str(workers), valid=())
    same(os.stat(mount.at("large")).st_size, size)
    whole, faults = room.program_in(WHOLE, other), []

    def read_parts(flags):
        try:
            reads_near_marks(mount.at("large"), other, flags, flags, TIMES if room.is_proved else TIMES_OF_UNPROVED)
        except (AssertionError, OSError) as error:
            faults.append(repr(error))

    readers = [threading.Thread(target=read_parts, args=(it,)) for it in (0, os.O_DIRECT)]
    for it in readers:
        it.start()
    for _ in range(TAKEOVERS):
        drop_caches(with_pages=True)
        mount.take_over()
    for it in readers:
        it.join(3 * WAIT)
    same((faults, any(it.is_alive() for it in readers)), ([], False))
    all_work_on([whole])
    all_end([whole])
    mount.unmount()


@row
def a_file_of_a_gigabyte_is_read_with_1_worker(room):
    """A file of a gigabyte is read whole by `cmp`, and in parts at a thousand places by the kernel's pages and past them, while
    daemons with one worker take over: each byte is the file's."""
    huge_is_read(room, 1)


@row
def a_file_of_a_gigabyte_is_read_with_4_workers(room):
    """The same with four workers."""
    huge_is_read(room, 4)
