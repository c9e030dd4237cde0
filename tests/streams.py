"""Streams that stutter, fail and count: a library that stands before a program's reads, its writes and its memory."""
import os
import struct
import subprocess

# What the library goes by stands in the environment. COUNTS is a file of two numbers: how many reads of standard input
# and writes to standard output were made. BEHIND says that standard input is slow, and what comes behind its end: ends,
# fails, lines or interrupted. ROOM is how many bytes standard output takes, and MOST the size from which on memory is
# refused.
LIBRARY = r"""
#define _GNU_SOURCE
#include <dlfcn.h>
#include <errno.h>
#include <fcntl.h>
#include <stdlib.h>
#include <string.h>
#include <sys/mman.h>
#include <unistd.h>
static ssize_t (*next_read)(int, void *, size_t), (*next_write)(int, const void *, size_t);
static void *(*next_malloc)(size_t);
static const char *behind;
static long *counts, room = -1, most = -1;
static int has_byte, has_ended;
static char byte;
static long number(const char *name) { return getenv(name) ? atol(getenv(name)) : -1; }
__attribute__((constructor)) static void begin(void) {
    next_read = dlsym(RTLD_NEXT, "read");
    next_write = dlsym(RTLD_NEXT, "write");
    next_malloc = dlsym(RTLD_NEXT, "malloc");
    counts = mmap(NULL, 16, PROT_READ | PROT_WRITE, MAP_SHARED, open(getenv("COUNTS"), O_RDWR), 0);
    behind = getenv("BEHIND");
    room = number("ROOM");
    most = number("MOST");
}
static ssize_t fails(int error) { errno = error; return -1; }
static ssize_t read_behind(char *buffer, size_t size) {
    if (!strcmp(behind, "fails")) return fails(EIO);
    if (!strcmp(behind, "interrupted")) return fails(EINTR);
    if (!strcmp(behind, "ends")) return 0;
    memset(buffer, '\n', size);
    return size;
}
static ssize_t read_slowly(char *buffer, size_t size) {
    if (!has_byte && !has_ended) has_byte = !(has_ended = next_read(0, &byte, 1) != 1);
    if (has_ended) return read_behind(buffer, size);
    if (counts[0] % 2 == 0) return fails(EINTR);
    has_byte = 0;
    *buffer = byte;
    return 1;
}
ssize_t read(int from, void *buffer, size_t size) {
    if (from != 0 || size == 0) return next_read(from, buffer, size);
    counts[0]++;
    return behind ? read_slowly(buffer, size) : next_read(from, buffer, size);
}
ssize_t write(int to, const void *buffer, size_t size) {
    if (to != 1) return next_write(to, buffer, size);
    counts[1]++;
    if (room < 0) return next_write(to, buffer, size);
    if (room == 0) return fails(ENOSPC);
    ssize_t taken = next_write(to, buffer, size < room ? size : room);
    if (taken > 0) room -= taken;
    return taken;
}
void *malloc(size_t size) {
    if (most >= 0 && size >= most) return NULL;
    if (!next_malloc) next_malloc = dlsym(RTLD_NEXT, "malloc");
    return next_malloc(size);
}
"""


class Streams:
    """The library in a folder, and what its environment says."""

    def __init__(self, folder):
        self.library, self.counts = f"{folder}/streams.so", f"{folder}/counts"
        words = ["cc", "-O1", "-shared", "-fPIC", "-x", "c", "-o", self.library, "-", "-ldl"]
        subprocess.run(words, input=LIBRARY.encode(), check=True)
        self.clear()
        os.chmod(self.counts, 0o666)

    def clear(self):
        """Counts from nothing again."""
        with open(self.counts, "wb") as file:
            file.write(bytes(16))

    def counted(self):
        """Returns how many reads of standard input and writes to standard output were made."""
        with open(self.counts, "rb") as file:
            return dict(zip(("reads", "writes"), struct.unpack("qq", file.read())))

    def environment(self, said):
        """Returns the environment for a row that says so: none where its streams are the system's."""
        it = {}
        if said.get("stdin", "").startswith("slow"):
            it["BEHIND"] = said["stdin"].removeprefix("slow").strip() or "ends"
        if said.get("stdout", "").startswith("room "):
            it["ROOM"] = said["stdout"].removeprefix("room ")
        if "memory" in said:
            it["MOST"] = said["memory"].removeprefix("below ")
        if it or "reads" in said or "writes" in said:
            it.update(LD_PRELOAD=self.library, COUNTS=self.counts)
        return it
