"""Streams to which nothing can be printed, and processes that print to them."""
import contextlib
import fcntl
import os

from process_rows.rooms import STARTING, Running

FULL = "edend: standard output: No space left on device (os error 28)\n"
CLOSED = "edend: standard output: Broken pipe (os error 32)\n"
NONE = "edend: standard output: Bad file descriptor (os error 9)\n"
UNREAD = "edend: standard output: nobody reads\n"


@contextlib.contextmanager
def full_disk():
    with open("/dev/full", "wb") as full:
        yield full


@contextlib.contextmanager
def closed_pipe():
    unread, pipe = os.pipe()
    with STARTING:
        os.close(unread)
    yield pipe
    os.close(pipe)


@contextlib.contextmanager
def unread_pipe():
    """A pipe that is full, and that nobody reads."""
    reads, writes = os.pipe()
    flags = fcntl.fcntl(writes, fcntl.F_GETFL)
    fcntl.fcntl(writes, fcntl.F_SETFL, flags | os.O_NONBLOCK)
    with contextlib.suppress(BlockingIOError):
        while True:
            os.write(writes, bytes(4096))
    fcntl.fcntl(writes, fcntl.F_SETFL, flags)
    yield writes
    with STARTING:
        os.close(reads)
        os.close(writes)


@contextlib.contextmanager
def nothing():
    """No stream at all."""
    yield None


SINKS = ((full_disk, FULL), (closed_pipe, CLOSED))
ALL_SINKS = (*SINKS, (nothing, NONE), (unread_pipe, UNREAD))


def printing_to(out, room, *words):
    """Starts a process that prints to `out`, or has no standard output where that is none."""
    if out is not None:
        return room.run(*words, stdout=out)
    it = Running("sh", room.path, ["-c", 'exec "$0" "$@" >&-', room.program, *words])
    room.running.append(it)
    return it
