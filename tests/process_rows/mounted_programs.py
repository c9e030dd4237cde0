"""Rows: programs work in a mount while daemons take it over from one another, and what the kernel holds is what the next
daemon counts."""
import random

from process_rows.checks import row
from process_rows.mounts import DIRECTORIES, FILES, WORK, Mount, all_end, drop_caches, size_of

# A program without a proof is slow: it gets fewer rounds, and fewer files are looked for.
ROUNDS, ROUNDS_OF_UNPROVED = 20, 4
STEP, STEP_OF_UNPROVED = 1, 20

# Finds each file by its name.
FIND = """xargs -a "$1" sh -c 'exec find "$@" -maxdepth 0 -printf "%y %m %s %p\\n"' sh >"$2"
cmp "$2" "$3" >&2"""
STAT = """while read -r file shown; do
  [ "$(stat -c '%A %h %s' "$file")" = "$shown" ] || { echo "$file is not $shown" >&2; exit 1; }
done <"$1" """
# Lists all directories of the manifest.
LIST = """LC_ALL=C ls -R d* | cmp - "$1" >&2"""
# Makes, moves and removes files and directories, each in a directory of its own.
MAKE = f"""mkdir {WORK}/$1; cd {WORK}/$1
mkdir a a/b; mv a c; mv c/b b; stat -c %i c b >/dev/null; rmdir c b
file=$(mktemp tmp.XXXXXX); other=$(mktemp tmp.XXXXXX); mv "$file" kept; mv "$other" kept
[ ! -e "$file" ]; [ -e kept ]; rm kept; [ ! -e kept ]
folder=$(mktemp -d folder.XXXXXX); : >"$folder/file"; mv "$folder/file" .; rmdir "$folder"; rm file
cd ../..; rmdir {WORK}/$1"""


def rounds_of(room):
    return ROUNDS if room.is_proved else ROUNDS_OF_UNPROVED


def listed():
    """Returns what `ls -R` prints of the directories of the manifest."""
    names = "".join(f"{it}\n" for it in sorted(f"f{it}" for it in range(FILES)))
    return "\n".join(f"{it}:\n{names}" for it in sorted(f"d{it}" for it in range(DIRECTORIES)))


def programs_of(room):
    """Starts the programs that work in a mount."""
    every = [(directory, file) for directory in range(DIRECTORIES) for file in range(FILES)]
    every = every[:: STEP if room.is_proved else STEP_OF_UNPROVED]
    room.write("names", "".join(f"d{it[0]}/f{it[1]}\n" for it in every).encode())
    room.write("wanted", "".join(f"f 644 {size_of(*it)} d{it[0]}/f{it[1]}\n" for it in every).encode())
    some = random.Random(1).sample(every, 40)
    room.write("stats", "".join(f"d{it[0]}/f{it[1]} -rw-r--r-- 1 {size_of(*it)}\n" for it in some).encode())
    room.write("listed", listed().encode())
    at = room.path
    return [
        room.program_in(FIND, f"{at}/names", f"{at}/found", f"{at}/wanted"), room.program_in(STAT, f"{at}/stats"),
        room.program_in(LIST, f"{at}/listed"), room.program_in(MAKE, "one"), room.program_in(MAKE, "two"),
    ]


def covers(image, held):
    """Shows of a takeover under load that the image counts at least what the kernel holds: beyond that it counts replies
    that the kernel didn't get yet, and forgets that no daemon took."""
    for number, count in held.items():
        if image.get(number, 0) < count:
            raise AssertionError(f"the kernel holds {number} {count} times, and the image counts {image.get(number)}")


def taken_over_below_programs(room, workers):
    """Lets daemons take over below programs. In every other round the programs rest meanwhile."""
    mount = Mount(room, "--workers", str(workers))
    programs = programs_of(room)
    for number in range(rounds_of(room)):
        drop_caches()
        if number % 2:
            for it in programs:
                it.rest()
            mount.take_over_at_rest()
            for it in programs:
                it.go_on()
        else:
            held, image = mount.take_over()
            covers(image, held)
    all_end(programs)
    mount.counts_what_is_held()
    mount.unmount()


@row
def programs_work_on_with_1_worker(room):
    """Programs find, list, stat, make, move and remove files while daemons with one worker take over; nothing fails."""
    taken_over_below_programs(room, 1)


@row
def programs_work_on_with_2_workers(room):
    """Programs find, list, stat, make, move and remove files while daemons with two workers take over; nothing fails."""
    taken_over_below_programs(room, 2)


@row
def programs_work_on_with_16_workers(room):
    """Programs find, list, stat, make, move and remove files while daemons with sixteen workers take over; nothing fails."""
    taken_over_below_programs(room, 16)
