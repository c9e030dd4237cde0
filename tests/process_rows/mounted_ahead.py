"""Rows: the blobs of files that are read one after another are asked for before somebody reads them."""
import errno
import os
import time

from process_rows.checks import WAIT, row, same, took_between
from process_rows.mounted_stores import (
    SILENCE, asked_of, hangs_at, id_of, mounted, reads, small_files, with_git_in_front,
)
from process_rows.mounts import drop_caches, until

# How many files are read in order, so that those behind them are asked for.
READ = 6
# For how many seconds nothing is asked that is not wanted.
QUIET = 1


def in_order(contents):
    """Returns the names of a commit's files in the order of its tree."""
    return sorted(contents)


def ends_without_a_word(mount):
    """Unmounts, and shows that the daemon said nothing."""
    mount.unmount()
    same(mount.daemon.said(), "")


@row
def a_read_out_of_order_asks_nothing_ahead(room):
    """Files are read from the last one to the first, and by steps of more places than eight: git is asked for these files alone."""
    contents = small_files()
    env, at = with_git_in_front(room)
    mount, path = mounted(room, contents, env=env)
    names = in_order(contents)
    wanted = [*names[-1:-6:-1], names[0], names[10], names[20], names[30]]
    reads(mount, {it: contents[it] for it in wanted})
    time.sleep(QUIET)
    same(sorted(asked_of(at)), sorted(id_of(path, it) for it in wanted))
    mount.unmount()


@row
def a_tree_that_is_read_in_order_is_asked_for_once(room):
    """Files are read in the order of the tree: files behind them are asked for before somebody reads them. Once all are read, twice,
    each was asked for once."""
    contents = small_files()
    env, at = with_git_in_front(room)
    mount, path = mounted(room, contents, "--workers", "4", env=env)
    names = in_order(contents)
    reads(mount, {it: contents[it] for it in names[:READ]})
    ids = {id_of(path, it) for it in names[: 2 * READ]}
    until(lambda: ids <= set(asked_of(at)), "blobs that are asked for ahead")
    for _ in range(2):
        reads(mount, {it: contents[it] for it in names})
        drop_caches(with_pages=True)
    asked = asked_of(at)
    same((len(asked), set(asked)), (len(contents), {id_of(path, it) for it in names}))
    ends_without_a_word(mount)


def with_one_missing(room):
    """Mounts a commit, takes the object of one file away, and reads files before it in order, until it was asked for ahead. Returns
    the mount, the file's name, and the contents of the others."""
    contents = small_files()
    env, at = with_git_in_front(room)
    mount, path = mounted(room, contents, env=env)
    names = in_order(contents)
    missing = names[READ + 2]
    object_id = id_of(path, missing)
    os.unlink(f"{path}/.git/objects/{object_id[:2]}/{object_id[2:]}")
    reads(mount, {it: contents[it] for it in names[:READ]})
    until(lambda: object_id in asked_of(at), "the missing blob to be asked for ahead")
    return mount, missing, {it: contents[it] for it in names if it != missing}


@row
def a_missing_blob_that_is_asked_ahead_is_told_to_nobody(room):
    """The object of one file is missing, and is asked for ahead. All other files have their bytes, and nothing is said."""
    mount, _, others = with_one_missing(room)
    reads(mount, others)
    ends_without_a_word(mount)


@row
def a_missing_blob_that_was_asked_ahead_fails_who_reads_it(room):
    """The object of one file is missing, and was asked for ahead. Reading it ends by EIO, and it is named. All other files have their
    bytes."""
    mount, missing, others = with_one_missing(room)
    reads(mount, others | {missing: errno.EIO})
    mount.unmount()
    same(mount.daemon.said(), f"edend: cannot read {missing}: the repository has no such object\n")


@row
def a_git_that_stands_still_ahead_stops_nobody_for_long(room):
    """As many processes of git stand still as fetch ahead. Files behind those are read at once. Who reads a file that such a process
    was asked for waits until that is killed, and gets the bytes from another one. Nothing is said."""
    contents = small_files()
    env, at = with_git_in_front(room)
    mount, path = mounted(room, contents, "--workers", "4", env=env)
    names = in_order(contents)
    stuck = names[READ : READ + 3]
    hangs_at(at, path, *stuck)
    reads(mount, {it: contents[it] for it in names[:READ]})
    began = time.monotonic()
    reads(mount, {it: contents[it] for it in names[READ + 3 :]})
    took_between(-1, time.monotonic() - began, SILENCE - 1, "files behind")
    hangs_at(at, path)
    reads(mount, {it: contents[it] for it in stuck})
    took_between(-1, time.monotonic() - began, WAIT, "files that git stood still at")
    ends_without_a_word(mount)
