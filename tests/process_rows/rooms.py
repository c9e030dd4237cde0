"""Folders in which processes of the program run, and what these print."""
import itertools
import os
import resource
import socket
import subprocess
import tempfile
import threading
import time

from process_rows.checks import PATIENCE, WAIT, TooSlow, same
from process_rows.frames import Peer

MANIFEST = b"""commit 0123456789abcdef0123456789abcdef01234567
dir src
file 0644 12 src/a
file 0755 0 src/b
file 0644 7 README
"""
OTHER_MANIFEST = MANIFEST.replace(b"commit 01", b"commit 02")
# Another size, and the same commit.
OTHER_LINES = MANIFEST.replace(b"12 src/a", b"13 src/a")
ENTRY = "entry 2 dir 0755 0 2"
ATTR_1 = "attr 1 dir 0755 0 2"


# Held while a process starts: until it does, it has a copy of each file that is open here.
STARTING = threading.Lock()


def allow_many_files():
    """Lets this process have as many open files as it may, for connections."""
    most = resource.getrlimit(resource.RLIMIT_NOFILE)[1]
    resource.setrlimit(resource.RLIMIT_NOFILE, (most, most))


def takes_connections(path):
    """Returns whether somebody listens at a socket."""
    with socket.socket(socket.AF_UNIX, socket.SOCK_STREAM) as end:
        return end.connect_ex(path) == 0


def start(words, **streams):
    """Starts a process."""
    with STARTING:
        return subprocess.Popen(words, **streams)


def run_to_end(words, **streams):
    """Runs a process to its end, and returns its status and what standard output got, where that is a pipe."""
    child = start(words, **streams)
    try:
        printed, _ = child.communicate(timeout=WAIT)
    except subprocess.TimeoutExpired:
        child.kill()
        child.wait()
        raise
    return child.returncode, printed


class Running:
    """A process of the program, and the lines that it printed so far."""

    def __init__(
        self, program, room, words, stdin=subprocess.DEVNULL, stdout=subprocess.PIPE, megabytes=None, env=None
    ):
        limit = megabytes and (lambda: resource.setrlimit(resource.RLIMIT_AS, (megabytes << 20, megabytes << 20)))
        self.words = words
        self.child = start(
            [program, *words], stdin=stdin, stdout=stdout, stderr=subprocess.PIPE, cwd=room, preexec_fn=limit, env=env
        )
        self.pid = self.child.pid
        self.lines = []
        self.changed = threading.Condition()
        self.reader = threading.Thread(target=self.read, daemon=True)
        self.reader.start()

    def read(self):
        for line in self.child.stdout or []:
            with self.changed:
                self.lines.append(line.decode("latin-1").rstrip("\n"))
                self.changed.notify_all()

    def printed(self, what):
        """Waits until a line was printed, or a count of lines."""
        self.awaits((lambda lines: len(lines) >= what) if isinstance(what, int) else (lambda lines: what in lines), what)

    def awaits(self, is_there, what="more"):
        """Waits until the lines are such as are awaited."""
        with self.changed:
            if not self.changed.wait_for(lambda: is_there(self.lines), WAIT):
                raise TooSlow(f"{what!r} was not printed, but {self.lines}")

    def ends(self, lines, status=0, error=None, may_repeat=False):
        """Waits for the end, and compares what was printed, and the status. Lines that may repeat themselves stand once
        in `lines`."""
        got = self.child.wait(WAIT)
        self.reader.join(WAIT)
        same([line for line, _ in itertools.groupby(self.lines)] if may_repeat else self.lines, lines)
        same(got, status)
        if error is not None and error not in (said := self.said()):
            raise AssertionError(f"{said!r} has no {error!r}")

    def said(self):
        """Returns what standard error got, where that was not read before."""
        return self.child.stderr.read().decode("latin-1")

    def ending(self):
        """Waits for the end, and returns the last line that was printed, and the status."""
        status = self.child.wait(WAIT)
        self.reader.join(WAIT)
        return self.lines[-1], status

    def used(self):
        """Returns the processor time that it used, in seconds, with that of its threads that ended."""
        return time.clock_gettime(~self.pid << 3 | 2)

    def is_running(self):
        return self.child.poll() is None

    def kill(self):
        """Kills it, and waits until it is gone. What it printed is read by then."""
        self.child.kill()
        self.child.wait(WAIT)
        self.reader.join(WAIT)


class Room:
    """A folder, and what runs in it."""

    def __init__(self, path, program, is_proved):
        self.path, self.program, self.is_proved = path, program, is_proved
        self.broker_at = f"{path}/broker.sock"
        self.takeover_at = f"{path}/takeover.sock"
        self.running = []
        self.ends = []
        self.is_late = False
        self.write("m", MANIFEST)

    def write(self, name, text):
        with open(f"{self.path}/{name}", "wb") as file:
            file.write(text)
        return name

    def run(self, *words, **streams):
        it = Running(self.program, self.path, words, **streams)
        self.running.append(it)
        return it

    def broker(self, *lines, **streams):
        """Starts a broker, and waits until it listens."""
        self.write("script", "".join(f"{line}\n" for line in lines).encode())
        is_left = os.path.exists(self.broker_at)
        it = self.run("broker", "broker.sock", "script", **streams)
        self.await_socket(self.broker_at, is_left)
        return it

    def await_socket(self, path, is_left=False):
        """Waits until a socket is there. If one of a process that was killed is left there, waits until a connection is
        taken."""
        until = time.monotonic() + WAIT
        while not (takes_connections(path) if is_left else os.path.exists(path)):
            if time.monotonic() > until:
                raise TooSlow(f"nobody listens at {path}")
            time.sleep(0.005)

    def mount(self, *options, **others):
        return self.daemon("--mount", options, **others)

    def take_over(self, *options, **others):
        return self.daemon("--takeover", options, **others)

    def daemon(self, how, options, manifest="m", patience=PATIENCE, **streams):
        """Starts a daemon. The options may name another patience; where `patience` is none, the words name none."""
        if patience and "--patience" not in options:
            options = ("--patience", patience, *options)
        return self.run("daemon", how, "broker.sock", "takeover.sock", manifest, *options, **streams)

    def peer(self, path=None):
        """Connects to the broker, or to another socket."""
        it = Peer.at(path or self.broker_at)
        self.ends.append(it)
        return it

    def listen(self, path):
        """Listens in place of a broker or a daemon."""
        it = socket.socket(socket.AF_UNIX, socket.SOCK_STREAM)
        it.settimeout(WAIT)
        it.bind(path)
        it.listen()
        self.ends.append(it)
        return it

    def accept(self, listener):
        it = Peer(listener.accept()[0])
        self.ends.append(it)
        return it

    def inner(self):
        """Returns another such folder within this one."""
        return Room(tempfile.mkdtemp(dir=self.path), self.program, self.is_proved)

    def printed(self):
        """Returns what each process that ran here has printed."""
        return [f"{it.words}: {it.lines}" for it in self.running]

    def clear(self):
        for it in self.running:
            it.kill()
        for it in self.ends:
            it.close()
