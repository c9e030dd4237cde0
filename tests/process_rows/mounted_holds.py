"""Rows: what programs hold in a mount stays theirs over every takeover, while the kernel forgets what nobody holds."""
import ctypes
import os
import select
import shutil
import struct
import subprocess

from process_rows.checks import WAIT, TooSlow, row, same
from process_rows.mounted_programs import rounds_of
from process_rows.mounts import WORK, Mount, drop_caches, mounts_below, size_of
from process_rows.rooms import run_to_end

IN_CREATE, IN_DELETE, IN_NONBLOCK = 0x100, 0x200, 0o4000


def over_takeovers(room, mount, shows):
    """Shows something before the first takeover and behind each, with the number of takeovers. At the end, while programs
    stand still, the daemon counts what the kernel holds."""
    shows(0)
    for number in range(1, rounds_of(room) + 1):
        mount.take_over()
        drop_caches()
        shows(number)
    for it in room.programs:
        it.rest()
    mount.counts_what_is_held()
    for it in room.programs:
        it.go_on()


@row
def a_directory_that_is_held_stays(room):
    """A program's working directory and an open one stay the same over every takeover, also once they are moved."""
    mount = Mount(room)
    held = os.open(mount.at("d1"), os.O_RDONLY | os.O_DIRECTORY)
    number = os.fstat(held).st_ino
    script = '[ "$(stat -c %i .)" = "$1" ]; stat f1 >/dev/null; mkdir here; rmdir here'
    program = room.program_in(script, str(number), directory="d1")

    def shows(rounds):
        same((os.fstat(held).st_ino, os.stat("f7", dir_fd=held).st_size), (number, size_of(1, 7)))
        program.works_on()
        os.mkdir(f"made{rounds}", dir_fd=held)
        os.rmdir(f"made{rounds}", dir_fd=held)

    try:
        over_takeovers(room, mount, shows)
        os.rename(mount.at("d1"), mount.at(f"{WORK}/moved"))
        mount.take_over()
        program.works_on()
        same(os.readlink(f"/proc/self/fd/{held}"), mount.at(f"{WORK}/moved"))
    finally:
        os.close(held)
    program.ends()
    mount.unmount()


@row
def an_unlinked_file_stays_open(room):
    """A file that was unlinked while a program has it open is the same over every takeover; a new one has its name."""
    mount = Mount(room)
    path = mount.at(f"{WORK}/file")
    held = os.open(path, os.O_CREAT | os.O_EXCL | os.O_RDWR, 0o640)
    number = os.fstat(held).st_ino
    os.unlink(path)

    def shows(rounds):
        seen = os.fstat(held)
        same((seen.st_ino, seen.st_nlink, seen.st_mode, seen.st_size), (number, 0, 0o100640, 0))
        same(os.path.exists(path), False)
        os.close(os.open(path, os.O_CREAT | os.O_EXCL | os.O_RDWR, 0o600))
        same(os.stat(path).st_ino != number, True)
        os.unlink(path)

    try:
        over_takeovers(room, mount, shows)
    finally:
        os.close(held)
    mount.unmount()


@row
def a_mount_below_stays(room):
    """What is mounted on a directory of the mount stays mounted over every takeover."""
    mount = Mount(room)
    os.mkdir(f"{room.path}/outer")
    room.write("outer/inside", b"seen")
    point = mount.at("d2")
    same(run_to_end(["mount", "--bind", f"{room.path}/outer", point])[0], 0)

    def shows(_rounds):
        same(os.listdir(point), ["inside"])
        with open(f"{point}/inside", "rb") as file:
            same(file.read(), b"seen")
        same(os.stat(mount.at("d1/f1")).st_size, size_of(1, 1))
        same(mounts_below(room.path), [point, mount.path])

    over_takeovers(room, mount, shows)
    status, _ = run_to_end(["umount", mount.path], stderr=subprocess.DEVNULL)
    same((status != 0, mounts_below(room.path)), (True, [point, mount.path]))
    same(run_to_end(["umount", point])[0], 0)
    same(os.stat(f"{point}/f1").st_size, size_of(2, 1))
    mount.unmount()


class Watch:
    """A watch of what is made and removed in a directory."""

    def __init__(self, path):
        system = ctypes.CDLL(None, use_errno=True)
        self.end = system.inotify_init1(IN_NONBLOCK)
        same(system.inotify_add_watch(self.end, path.encode(), IN_CREATE | IN_DELETE), 1)

    def sees(self, count):
        """Returns the next so many things that were seen: what, and its name."""
        seen = []
        while len(seen) < count:
            if not select.select([self.end], [], [], WAIT)[0]:
                raise TooSlow(f"nothing more than {seen} was seen")
            text = os.read(self.end, 4096)
            while text:
                _, mask, _, length = struct.unpack("=iIII", text[:16])
                seen.append((mask & 0xFFF, text[16 : 16 + length].rstrip(b"\0").decode()))
                text = text[16 + length :]
        return seen

    def close(self):
        os.close(self.end)


@row
def a_watch_stays(room):
    """A program that watches a directory is told what others make and remove there, over every takeover."""
    mount = Mount(room)
    watch = Watch(mount.at("d3"))

    def shows(rounds):
        name = f"n{rounds}"
        for command in ("mkdir", "rmdir"):
            same(run_to_end([command, mount.at(f"d3/{name}")])[0], 0)
        same(watch.sees(2), [(IN_CREATE, name), (IN_DELETE, name)])

    try:
        over_takeovers(room, mount, shows)
    finally:
        watch.close()
    mount.unmount()


@row
def times_stay(room):
    """Times, sizes and blocks of what nobody changed are the same over every takeover, so make has nothing to do."""
    mount = Mount(room)
    names = ["d4", "d4/f0", "d4/f1", "d9/f49", WORK]
    room.write("Makefile", f"made: {mount.at('d4/f1')} {mount.at('d9/f49')}\n\techo >made\n".encode())

    def looks():
        seen = [os.stat(mount.at(name)) for name in names]
        return [(it.st_mtime_ns, it.st_ctime_ns, it.st_size, it.st_blocks, it.st_mode) for it in seen]

    def make(*words):
        return run_to_end(["make", "-r", "-C", room.path, *words], stdout=subprocess.PIPE, stderr=subprocess.PIPE)[0]

    first = looks()
    same([it[3] for it in first], [-(-it[2] // 512) for it in first])
    has_make = shutil.which("make") is not None
    same(has_make and make(), 0)

    def shows(_rounds):
        same(looks(), first)
        same(has_make and make("-q"), 0)

    over_takeovers(room, mount, shows)
    mount.unmount()
