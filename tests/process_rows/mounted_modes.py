"""Rows: the kernel checks modes in a mount, and its files are those of who started the broker, or of the owner that the
words name."""
import os
import shutil
import subprocess

from process_rows.checks import row, same
from process_rows.mounts import WORK, Mount, mounts_below
from process_rows.rooms import run_to_end

NOBODY = 65534
# What changes a directory: each has a name of its own to make, or moves or removes what stands there.
CHANGES = ("mkdir made", ": >file", "mv kept other", "rm -f kept", "rmdir folder", "mv folder away")


def by(mount, user, script):
    """Runs a script in the mount's working directory as a user, and returns its status and what it said."""
    streams = {"stdout": subprocess.PIPE, "stderr": subprocess.STDOUT, "stdin": subprocess.DEVNULL}
    return run_to_end(
        ["sh", "-c", script], cwd=mount.at(WORK), user=user, group=user, extra_groups=[], **streams
    )


@row
def others_change_nothing(room):
    """Who doesn't own a directory of mode 0755 makes, moves and removes nothing in it; root, who owns it, may."""
    mount = Mount(room)
    same(by(mount, 0, ": >kept; mkdir folder")[0], 0)
    for script in CHANGES:
        status, said = by(mount, NOBODY, script)
        same((status != 0, b"Permission denied" in said), (True, True))
    same([os.path.exists(mount.at(f"{WORK}/{name}")) for name in ("kept", "folder", "made", "file", "other", "away")],
         [True, True, False, False, False, False])
    same(by(mount, NOBODY, "stat -c '%u %g %a' . kept"), (0, b"0 0 755\n0 0 644\n"))
    for script in CHANGES[:3]:
        same(by(mount, 0, script), (0, b""))
    mount.unmount()


@row
def the_owner_changes_what_he_owns(room):
    """The owner that --owner names may make, move and remove, and files are his and his group's behind a takeover too."""
    mount = Mount(room, owner=f"{NOBODY}:12")
    mount.take_over()
    same(by(mount, NOBODY, "mkdir made; : >kept; mv kept made; rm made/kept; rmdir made; stat -c '%u %g' ."), (0, b"65534 12\n"))
    found = os.stat(mount.at("d0/f1"))
    same((found.st_uid, found.st_gid, os.stat(mount.path).st_uid), (NOBODY, 12, NOBODY))
    status, said = by(mount, 1, "mkdir made")
    same((status != 0, b"Permission denied" in said), (True, True))
    mount.unmount()


@row
def files_are_those_of_who_mounts(room):
    """Without --owner the files are those of the user and the group of the broker. Set-uid files have no effect, and a READ asks
    for no more than an answer takes."""
    program, room.program = room.program, shutil.which("setpriv") or shutil.which("sg")
    options = ("--regid", "12", "--clear-groups", program) if room.program.endswith("setpriv") else ("12", "-c")
    broker = room.run(*options, "mount", "mnt", "broker.sock")
    room.program = program
    room.await_socket(room.broker_at)
    daemon = room.run("daemon", "--mount", "broker.sock", "t0", "m")
    daemon.printed("serving 1")
    found = os.stat(f"{room.mountpoint}/{WORK}")
    same((found.st_uid, found.st_gid), (0, 12))
    with open("/proc/self/mountinfo") as file:
        (line,) = [line.split() for line in file if line.split(" ")[4] == room.mountpoint]
    same({"nosuid", "nodev"} <= set(line[5].split(",")), True)
    same({"default_permissions", "max_read=61440"} <= set(line[-1].split(",")), True)
    same(mounts_below(room.path), [room.mountpoint])
    same(run_to_end(["umount", room.mountpoint])[0], 0)
    same((daemon.ending(), broker.ending()), (("ended", 0), ("ended", 0)))
