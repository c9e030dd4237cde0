"""Rows: mounts that can't be made, and where a broker listens that mounts."""
import os
import shutil
import signal
import socket

from process_rows.checks import row, same
from process_rows.mounts import Mount, mounts_below
from process_rows.rooms import run_to_end


def fails_to_mount(room, broker, path):
    """Shows that a broker says that it can't mount, and made no socket."""
    broker.ends(["fault: cannot mount"], 1, path)
    same(mounts_below(room.path), [])
    same(os.path.exists(room.broker_at), False)


@row
def a_mountpoint_that_is_not_there(room):
    """A broker can't mount where nothing is: it says so before it listens."""
    fails_to_mount(room, room.mount_broker(mountpoint="none"), "none")


@row
def a_mountpoint_that_is_a_file(room):
    """A broker can't mount on a file: it says so before it listens."""
    room.write("file", b"kept")
    fails_to_mount(room, room.mount_broker(mountpoint="file"), "file")
    with open(f"{room.path}/file", "rb") as file:
        same(file.read(), b"kept")


@row
def a_second_broker_at_a_mountpoint(room):
    """A broker doesn't mount over what another broker serves, also while the daemon there stands still; that serves on."""
    mount = Mount(room)
    room.mount_broker(socket="other.sock").ends(["fault: cannot mount"], 1, "mnt")
    os.kill(mount.daemon.pid, signal.SIGSTOP)
    room.mount_broker(socket="other.sock").ends(["fault: cannot mount"], 1, "mnt")
    os.kill(mount.daemon.pid, signal.SIGCONT)
    same(os.path.exists(f"{room.path}/other.sock"), False)
    mount.take_over()
    same(mounts_below(room.path), [mount.path])
    mount.unmount()


@row
def a_second_broker_at_a_socket(room):
    """A broker doesn't take the socket at which another broker listens; that serves on, and daemons reach it."""
    mount = Mount(room)
    os.mkdir(f"{room.path}/other")
    room.mount_broker(mountpoint="other").ends(["fault: cannot listen"], 1, "broker.sock")
    mount.take_over()
    same(mounts_below(room.path), [mount.path])
    mount.unmount()


@row
def a_socket_that_another_process_put_in_place(room):
    """A broker removes its own socket at its end, and not one that came to stand there since."""
    mount = Mount(room)
    os.unlink(room.broker_at)
    with socket.socket(socket.AF_UNIX, socket.SOCK_STREAM) as other:
        other.bind(room.broker_at)
        same(run_to_end(["umount", mount.path])[0], 0)
        same(mount.daemon.ending(), ("ended", 0))
        same(mount.broker.ending(), ("ended", 0))
        same(os.path.exists(room.broker_at), True)


@row
def a_socket_path_that_is_a_file(room):
    """A broker that mounts leaves a file alone that stands in its socket's place."""
    room.write("broker.sock", b"kept")
    room.mount_broker().ends(["fault: cannot listen"], 1, "broker.sock")
    with open(room.broker_at, "rb") as file:
        same(file.read(), b"kept")


@row
def a_log_that_cannot_be_made(room):
    """A broker that can't make the file of what is held says so."""
    room.mount_broker("--held", "none/held").ends(["fault: no log"], 1, "none/held")
    same(os.path.exists(room.broker_at), False)


@row
def a_device_that_is_not_there(room):
    """A broker whose /dev has no fuse says so before it listens."""
    script = 'mount -t tmpfs tmpfs /dev; exec "$0" mount mnt broker.sock'
    program, room.program = room.program, shutil.which("unshare")
    broker = room.run("--mount", "sh", "-c", script, program)
    room.program = program
    broker.ends(["fault: no device"], 1, "/dev/fuse")
    same(os.path.exists(room.broker_at), False)


@row
def a_mount_listens_where_its_words_say(room):
    """A mount listens at the socket that its words name, and empties the file of --held where they have one."""
    for options, held in (((), []), (("--held", "h"), ["h"])):
        inner = room.inner()
        for file in held:
            inner.write(file, b"seat 1\n")
        it = inner.mount_broker(*options, socket="s")
        inner.await_socket(f"{inner.path}/s")
        same(sorted(os.listdir(inner.path)), [*held, "m", "mnt", "s"])
        same([os.path.getsize(f"{inner.path}/{file}") for file in held], [0] * len(held))
        same((it.is_running(), it.lines), (True, []))
        inner.clear()


# The commands by which a broker mounts, but for `mount`.
COMMANDS = ("sh", "setsid", "findmnt", "sed", "cat", "grep", "dirname", "basename", "umount", "stat")


def commands_in(room, mount=None):
    """Returns a PATH of the commands that a broker runs. `mount` is a script with this text, or isn't there."""
    os.mkdir(f"{room.path}/bin")
    for name in COMMANDS:
        os.symlink(shutil.which(name), f"{room.path}/bin/{name}")
    if mount:
        room.write("bin/mount", mount)
        os.chmod(f"{room.path}/bin/mount", 0o755)
    return {**os.environ, "PATH": f"{room.path}/bin"}


def serves_nothing(room, env, *errors):
    """Shows that a daemon says of no mount that it serves it where none is made, and that the broker says why."""
    broker = room.mount_broker(env=env)
    room.await_socket(room.broker_at)
    daemon = room.run("daemon", "--mount", "broker.sock", "t0", "m")
    daemon.ends(["fault: broken"], 1)
    broker.ends(["fault: cannot mount"], 1)
    said = broker.said()
    same([error in said for error in ("mnt", *errors)], [True] * (1 + len(errors)))
    same((mounts_below(room.path), os.path.exists(room.broker_at)), ([], False))


@row
def a_command_that_is_not_there(room):
    """Without a command that mounts, the broker says that it can't, and no daemon says that it serves."""
    serves_nothing(room, commands_in(room), "o such file")


@row
def a_command_that_fails(room):
    """Where the command that mounts fails, its cause is told, and no daemon says that it serves."""
    serves_nothing(room, commands_in(room, b"#!/bin/sh\nsleep 1\necho 'mount: no more mounts' >&2\nexit 32\n"), "no more mounts")
