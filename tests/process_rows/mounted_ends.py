"""Rows: how a mount ends, and what programs and daemons see of it."""
import errno
import os
import signal
import subprocess
import threading
import time

from process_rows.checks import WAIT, row, same
from process_rows.mounts import Mount, drop_caches, mounts_below, size_of, until
from process_rows.rooms import run_to_end

STAT = "stat d5/f5 >/dev/null"
# How a daemon may end while somebody unmounts.
FAULTS = ("no broker", "no daemon", "takeover failed", "broken")
ENDINGS = (("ended", 0), ("handed over", 0), *((f"fault: {it}", 1) for it in FAULTS))


def error_of(path):
    """Returns the error that a look at a path gives; 0 where there is none."""
    try:
        os.stat(path)
    except OSError as error:
        return error.errno
    return 0


def mounts_anew(room, mount, generation=2):
    """Lets a daemon mount over a dead mount, and shows that it serves."""
    until_seen = time.monotonic() + WAIT
    while True:
        daemon = room.run("daemon", "--mount", "broker.sock", "t0", "m", *mount.options)
        daemon.printed(1)
        if daemon.lines[0] != "fault: seated" or time.monotonic() > until_seen:
            break
    mount.broker.printed(f"mounted {generation}")
    same(daemon.lines, [f"serving {generation}"])
    mount.daemon, mount.number, mount.generation = daemon, 0, generation
    same(os.stat(mount.at("d5/f5")).st_size, size_of(5, 5))
    same(mounts_below(room.path), [mount.path])


@row
def a_killed_daemon_leaves_a_dead_mount(room):
    """A daemon is killed: the mount is dead, which programs are told, and a new daemon's mount stands over it."""
    mount = Mount(room)
    held = os.open(mount.at("d5"), os.O_RDONLY | os.O_DIRECTORY)
    program = room.program_in(STAT)
    try:
        program.works_on()
        mount.daemon.kill()
        mount.broker.printed("dead")
        same("not connected" in (said := program.fails()) or "abort" in said, True)
        same(error_of(mount.path), errno.ENOTCONN)
        same(error_of(mount.at("d5/f5")), errno.ENOTCONN)
        mounts_anew(room, mount)
        same(error_of(f"/proc/self/fd/{held}/f5"), errno.ENOTCONN)
    finally:
        os.close(held)
    mount.take_over()
    mount.counts_what_is_held()
    mount.unmount()
    same(mount.broker.lines, ["mounted 1", "dead", "mounted 2", "ended"])


@row
def a_daemon_that_is_killed_while_nobody_looks(room):
    """A daemon of an idle mount is killed, ten times: the mount is dead at once, and the next daemon mounts."""
    mount = Mount(room)
    for generation in range(2, 12 if room.is_proved else 4):
        mount.daemon.kill()
        mounts_anew(room, mount, generation)
    mount.unmount()


@row
def a_broker_that_ends_leaves_no_mount(room):
    """The broker is ended by each signal that ends processes: its daemon ends, programs are told that the mount is over,
    no mount is left behind, and a new broker mounts there."""
    for number in (signal.SIGKILL, signal.SIGTERM, signal.SIGINT, signal.SIGHUP):
        mount = Mount(room)
        program = room.program_in(STAT)
        program.works_on()
        os.kill(mount.broker.pid, number)
        program.fails()
        same(mount.daemon.ending(), ("fault: broken", 1))
        until(lambda: mounts_below(room.path) == [], "a place without a mount")
        same(os.listdir(mount.path), [])
    other = Mount(room)
    same(os.stat(other.at("d5/f5")).st_size, size_of(5, 5))
    same(mounts_below(room.path), [other.path])
    other.unmount()


def group_of(pid):
    """Returns a process and those of its children that are in its group."""
    _, children = run_to_end(["ps", "-o", "pid=", "--ppid", str(pid)], stdout=subprocess.PIPE)
    return [pid, *(it for it in map(int, children.split()) if os.getpgid(it) == os.getpgid(pid))]


@row
def a_broker_whose_group_is_killed_leaves_no_mount(room):
    """The broker is killed with all processes of its group: no mount is left behind."""
    mount = Mount(room)
    for pid in group_of(mount.broker.pid):
        os.kill(pid, signal.SIGKILL)
    same(mount.daemon.ending(), ("fault: broken", 1))
    until(lambda: mounts_below(room.path) == [], "a place without a mount")


@row
def a_dead_mount_ends_with_its_broker(room):
    """The daemon is killed, and then the broker: the dead mount is not left behind."""
    mount = Mount(room)
    mount.daemon.kill()
    mount.broker.printed("dead")
    same(error_of(mount.path), errno.ENOTCONN)
    mount.broker.kill()
    until(lambda: mounts_below(room.path) == [], "a place without a mount")


@row
def a_daemon_is_killed_while_as_many_ask_as_may(room):
    """More programs ask than may be under way at once, the daemon is stopped and killed: each of them is told so."""
    mount = Mount(room)
    os.kill(mount.daemon.pid, signal.SIGSTOP)
    threads = [threading.Thread(target=error_of, args=(mount.at(f"d{number % 40}/f{number % 50}"),)) for number in range(1100)]
    for it in threads:
        it.start()
    time.sleep(2)
    mount.daemon.kill()
    mount.broker.printed("dead")
    for it in threads:
        it.join(WAIT)
    same(sum(it.is_alive() for it in threads), 0)
    mounts_anew(room, mount)
    mount.unmount()


@row
def a_daemon_is_killed_below_a_covered_mount(room):
    """A mount is covered by another one, and its daemon is killed: a program in it is told so, and the next daemon mounts
    over both."""
    mount = Mount(room)
    program = room.program_in(STAT)
    program.works_on()
    same(run_to_end(["mount", "-t", "tmpfs", "tmpfs", mount.path])[0], 0)
    mount.daemon.kill()
    mount.broker.printed("dead")
    program.fails()
    mount.daemon = room.run("daemon", "--mount", "broker.sock", "t0", "m", *mount.options)
    mount.daemon.printed("serving 2")
    mount.broker.printed("mounted 2")
    same(os.stat(mount.at("d5/f5")).st_size, size_of(5, 5))
    same(len(mounts_below(room.path)), 3)


@row
def a_daemon_is_killed_behind_a_mount_that_was_moved(room):
    """A mount is moved elsewhere, or unmounted lazily while a program is in it, and its daemon is killed: the program is
    told so, and the next daemon mounts at the old place."""
    elsewhere = f"{room.path}/elsewhere"
    os.mkdir(elsewhere)
    for words in (["mount", "--move", "MOUNT", elsewhere], ["umount", "-l", "MOUNT"]):
        inner = room.inner()
        try:
            mount = Mount(inner)
            program = inner.program_in(STAT)
            program.works_on()
            same(run_to_end([mount.path if it == "MOUNT" else it for it in words])[0], 0)
            mount.daemon.kill()
            mount.broker.printed("dead")
            program.fails()
            mounts_anew(inner, mount)
            mount.unmount()
        finally:
            inner.clear()


@row
def a_mount_that_stood_still(room):
    """The broker, the daemon or both are stopped for seven seconds below a program, and go on then: no call of it fails,
    and the next daemon takes over."""
    mount = Mount(room)
    program = room.program_in(STAT)
    for whose in (("broker",), ("daemon",), ("broker", "daemon")):
        program.works_on()
        pids = [getattr(mount, it).pid for it in whose]
        for pid in pids:
            os.kill(pid, signal.SIGSTOP)
        time.sleep(7)
        for pid in pids:
            os.kill(pid, signal.SIGCONT)
        program.works_on()
        mount.take_over()
    program.ends()
    mount.counts_what_is_held()
    mount.unmount()


@row
def a_mount_in_use_is_not_unmounted(room):
    """A mount that a program uses can't be unmounted and serves on; unmounted lazily it ends when the program lets go."""
    mount = Mount(room)
    held = os.open(mount.at("d6"), os.O_RDONLY | os.O_DIRECTORY)
    try:
        same(run_to_end(["umount", mount.path], stderr=subprocess.DEVNULL)[0] != 0, True)
        mount.take_over()
        same(os.stat("f6", dir_fd=held).st_size, size_of(6, 6))
        same(run_to_end(["umount", "-l", mount.path])[0], 0)
        mount.take_over()
        same(os.stat("f6", dir_fd=held).st_size, size_of(6, 6))
        same((mounts_below(room.path), mount.broker.is_running()), ([], True))
    finally:
        os.close(held)
    same(mount.daemon.ending(), ("ended", 0))
    same(mount.broker.ending(), ("ended", 0))


@row
def a_mount_that_is_forced_to_end(room):
    """A mount is ended by force while a program waits for an answer: the program is told, and all ends well."""
    mount = Mount(room)
    program = room.program_in(STAT)
    program.works_on()
    run_to_end(["umount", "-f", mount.path], stderr=subprocess.DEVNULL)
    program.fails()
    same(mount.daemon.ending(), ("ended", 0))
    same(mount.broker.ending(), ("ended", 0))


@row
def unmounting_while_a_daemon_takes_over(room):
    """A mount without programs is unmounted at some moment of a takeover: whoever has the seat ends well."""
    for wait in (0, 0.002, 0.005, 0.01, 0.02, 0.05)[:: 1 if room.is_proved else 3]:
        inner = room.inner()
        try:
            mount = Mount(inner)
            new = mount.next_daemon()
            time.sleep(wait)
            same(run_to_end(["umount", mount.path])[0], 0)
            same(mount.broker.ending(), ("ended", 0))
            for it in (mount.daemon, new):
                same(it.ending() in ENDINGS, True)
        finally:
            inner.clear()


@row
def nothing_but_what_is_held_is_counted(room):
    """Once programs let go and the kernel dropped its caches, the daemons count few numbers, and none behind an end."""
    mount = Mount(room)
    # Other rows drop the caches too, so the files are open until they were counted.
    files = [os.open(mount.at(f"d{number % 40}/f{number % 50}"), os.O_PATH) for number in range(120)]
    try:
        before = len(mount.counts_what_is_held())
    finally:
        for file in files:
            os.close(file)
    same(before > 100, True)
    until(lambda: len(mount.counts_what_is_held()) < 10 or drop_caches(), "a kernel that holds little", 3 * WAIT)
    mount.unmount()
