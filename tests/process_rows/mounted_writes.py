"""Rows: a device that refuses the replies that a broker writes."""
import errno
import mmap
import os
import struct
import time

from process_rows.checks import row, same, took_between
from process_rows.mounted_ends import error_of
from process_rows.mounts import Mount, mounts_below, size_of, until
from process_rows.rooms import run_to_end

# Refuses as many writes to /dev/fuse as the file that the environment names has, with EIO.
REFUSING = r"""
#define _GNU_SOURCE
#include <dlfcn.h>
#include <errno.h>
#include <fcntl.h>
#include <stdlib.h>
#include <sys/mman.h>
#include <sys/stat.h>
#include <sys/sysmacros.h>
#include <unistd.h>
static ssize_t (*next_write)(int, const void *, size_t);
static long *left;
__attribute__((constructor)) static void begin(void) {
    next_write = dlsym(RTLD_NEXT, "write");
    left = mmap(NULL, sizeof(long), PROT_READ | PROT_WRITE, MAP_SHARED, open(getenv("REFUSED"), O_RDWR), 0);
}
static int is_device(int file) {
    struct stat it;
    return fstat(file, &it) == 0 && S_ISCHR(it.st_mode) && it.st_rdev == makedev(10, 229);
}
ssize_t write(int file, const void *bytes, size_t count) {
    if (*left > 0 && is_device(file) && __sync_sub_and_fetch(left, 1) >= 0) {
        errno = EIO;
        return -1;
    }
    return next_write(file, bytes, count);
}
"""


class RefusingMount(Mount):
    """A mount whose device refuses the next writes, as many as it is told."""

    def __init__(self, room):
        room.write("refusing.c", REFUSING.encode())
        words = ["cc", "-O1", "-shared", "-fPIC", "-o", "refusing.so", "refusing.c", "-ldl"]
        same(run_to_end(words, cwd=room.path)[0], 0)
        room.write("left", bytes(8))
        with open(f"{room.path}/left", "r+b") as file:
            self.left = mmap.mmap(file.fileno(), 8)
        super().__init__(room, env={**os.environ, "LD_PRELOAD": f"{room.path}/refusing.so", "REFUSED": f"{room.path}/left"})

    def error_behind(self, refusals):
        """Lets the device refuse so many writes, and returns the error of a look at a name that isn't there, which is one
        request and one reply. All of those writes were made then."""
        self.left[:] = struct.pack("q", refusals)
        error = error_of(self.at("none"))
        same(struct.unpack("q", self.left)[0] <= 0, True)
        return error


@row
def a_reply_that_the_device_refuses(room):
    """A reply that the device refuses once or twice comes all the same. Where it is refused three times the program that
    waits is told EIO; and all other replies come."""
    mount = RefusingMount(room)
    same([mount.error_behind(refusals) for refusals in range(6)], [errno.ENOENT] * 3 + [errno.EIO] * 3)
    same(os.stat(mount.at("d5/f5")).st_size, size_of(5, 5))
    mount.take_over()
    same(mount.error_behind(2), errno.ENOENT)
    mount.unmount()


def ends_broken(room, mount, look):
    """Shows that a mount is ended whose device refuses each write: a look is told an error, broker and daemon end, and no
    mount is left. The next broker and daemon serve."""
    began = time.monotonic()
    mount.left[:] = struct.pack("q", 6)
    try:
        look(mount.path)
    except OSError as error:
        same(error.errno in (errno.ENOTCONN, errno.ECONNABORTED), True)
    else:
        raise AssertionError("the look was told no error")
    took_between(0, time.monotonic() - began, 10, "a program was told an error")
    mount.broker.ends(["mounted 1", "fault: broken"], 1, error="/dev/fuse")
    same(mount.daemon.ending() in (("ended", 0), ("fault: broken", 1)), True)
    until(lambda: not mounts_below(room.path), "no mount")
    Mount(room).unmount()


@row
def a_device_that_refuses_every_reply(room):
    """A device that refuses each reply of a daemon ends the mount: no program waits for ever."""
    mount = RefusingMount(room)
    same(mount.error_behind(0), errno.ENOENT)
    ends_broken(room, mount, lambda path: os.stat(f"{path}/none"))


@row
def a_device_that_refuses_the_brokers_answers(room):
    """A device that refuses each answer of the broker itself ends the mount as well."""
    mount = RefusingMount(room)
    same(mount.error_behind(0), errno.ENOENT)
    ends_broken(room, mount, os.statvfs)
