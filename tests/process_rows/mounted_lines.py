"""Rows: a mount serves on where its lines can't be printed."""
import os
import subprocess

from process_rows.checks import PATIENCE, WAIT, row, same
from process_rows.mounts import mounts_below, size_of, until
from process_rows.printing_to import ALL_SINKS, printing_to
from process_rows.rooms import run_to_end


def daemon_to(out, room, how, number):
    """Starts a daemon that prints to `out`, and listens at the socket of this number."""
    at = f"t{number}" if how == "--mount" else "t0"
    return printing_to(out, room, "daemon", how, "--patience", PATIENCE, "broker.sock", at, "m")


@row
def a_mount_whose_lines_are_lost_serves_on(room):
    """A mount and its daemons whose lines can't be printed serve programs, over a takeover, and end by an unmount: no dead
    mount is left, and each says that its lines were lost."""
    for sink, said in ALL_SINKS:
        inner = room.inner()
        point = f"{inner.mountpoint}/d5/f5"
        with sink() as out, sink() as old, sink() as new:
            broker = printing_to(out, inner, "mount", "mnt", "broker.sock")
            inner.await_socket(inner.broker_at)
            first = daemon_to(old, inner, "--mount", 0)
            until(lambda: mounts_below(inner.path), "a mount")
            same(os.stat(point).st_size, size_of(5, 5))
            second = daemon_to(new, inner, "--takeover", 0)
            same((first.child.wait(WAIT), first.said()), (0, said))
            same(os.stat(point).st_size, size_of(5, 5))
            same(run_to_end(["umount", inner.mountpoint], stderr=subprocess.DEVNULL)[0], 0)
            for it in (second, broker):
                same((it.child.wait(WAIT), it.said()), (0, said))
        same(mounts_below(inner.path), [])
        inner.clear()
