"""Rows: words and places that are refused, and what the system refuses."""
import glob
import mmap
import os
import socket
import stat
import struct
import time

from process_rows.checks import WAIT, row, row_of_proved, same
from process_rows.daemons import mounted_by_hand
from process_rows.frames import request, u64
from process_rows.rooms import ATTR_1, ENTRY, MANIFEST, run_to_end


@row
def faults_of_a_daemons_words(room):
    """A broker or a daemon that isn't there, and manifests that can't be read: each fault by its text."""
    room.write("long", MANIFEST + b"#" * (1_048_577 - len(MANIFEST)))
    room.write("bad", b"dir src\n")
    os.mkdir(f"{room.path}/folder")
    for manifest, text, error in (
        ("none", "cannot read", "none: "),
        ("folder", "cannot read", "folder: "),
        ("long", "too long", ""),
        ("bad", "line 1: NoCommit", ""),
        ("m", "no broker", "broker.sock: "),
    ):
        for start in (room.mount, room.take_over):
            start(manifest=manifest).ends([f"fault: {text}"], 1, error)
    same(sorted(os.listdir(room.path)), ["bad", "folder", "long", "m"])
    room.broker("seat 1")
    room.take_over().ends(["fault: no daemon"], 1, "takeover.sock: ")


@row
def faults_of_a_directory_of_contents(room):
    """A directory of --files that isn't there, or is none, is told before the broker is looked for."""
    os.mkdir(f"{room.path}/folder")
    os.symlink("folder", f"{room.path}/link")
    for start in (room.mount, room.take_over):
        for place in ("none", "m", "none/folder"):
            start("--files", place).ends(["fault: no files"], 1, f"{place}: ")
        for place in ("folder", "link", "/", ".", "folder/.."):
            start("--files", place).ends(["fault: no broker"], 1, "broker.sock: ")


@row
def faults_of_a_brokers_words(room):
    """A socket's place that is taken, and scripts that can't be read: each fault by its text."""
    room.write("file", b"kept")
    room.write("good", b"held\n")
    room.write("bad", b"held\nhold\n")
    room.write("world", MANIFEST + b"--\n")
    os.mkdir(f"{room.path}/folder")
    for place, script, text, error in (
        ("s", "none", "cannot read", "none: "),
        ("s", "folder", "cannot read", "folder: "),
        ("s", "bad", "line 2: bad line", ""),
        ("s", "world", "line 1: bad line", ""),
        ("file", "good", "cannot listen", "file: "),
        ("folder", "good", "cannot listen", "folder: "),
        ("none/s", "good", "cannot listen", "none/s: "),
        ("n" * 200, "good", "cannot listen", ""),
    ):
        room.run("broker", place, script).ends([f"fault: {text}"], 1, error)
    with open(f"{room.path}/file", "rb") as file:
        same(file.read(), b"kept")
    room.run("broker", "s", "good").ends(["ended"])
    same(sorted(os.listdir(room.path)), ["bad", "file", "folder", "good", "m", "world"])


def told_in_little_room(room, *words):
    """Returns how a process ends in the least room in which it can be loaded: no thread's stack fits."""
    for megabytes in range(1, 32):
        it = room.run(*words, megabytes=megabytes)
        if it.child.wait(WAIT) in (0, 1):
            return it.ending()
    raise AssertionError(f"{words} can't be loaded")


@row_of_proved
def no_thread_is_told(room):
    """A broker and a daemon for which no thread can be made say so."""
    room.write("script", b"seat 1\nseat 2\n")
    same(told_in_little_room(room, "broker", "b", "script"), ("fault: no thread", 1))
    room.broker("seat 1", "seat 2")
    mount = ["daemon", "--mount", "broker.sock", "takeover.sock", "m", "--workers", "1"]
    same(told_in_little_room(room, *mount), ("fault: no thread", 1))


@row
def a_second_mount_is_refused(room):
    """A second daemon by --mount is told that another one is seated, and the first serves on."""
    broker = room.broker("seat 1", "seat 2", "ask lookup 1 src")
    first = room.mount()
    first.printed("serving 1")
    room.mount().ends(["fault: seated"], 1)
    second = room.take_over()
    broker.ends(["seat 1", "seat 2", f"answer 1 {ENTRY}", "ended"])
    first.ends(["serving 1", "handed over"])
    second.ends(["serving 2", "ended"])


@row
def what_is_no_socket_is_left_alone(room):
    """A daemon can't listen where something else stands, leaves it there, and takes no seat."""
    broker = room.broker("seat 1", "ask getattr 1")
    room.write("takeover.sock", b"kept")
    room.mount().ends(["fault: cannot listen"], 1, "takeover.sock: ")
    with open(room.takeover_at, "rb") as file:
        same(file.read(), b"kept")
    os.remove(room.takeover_at)
    daemon = room.mount()
    broker.ends(["seat 1", f"answer 1 {ATTR_1}", "ended"])
    daemon.ends(["serving 1", "ended"])


@row
def stale_sockets_are_replaced(room):
    """Sockets that nobody listens at are replaced, by a broker and by a daemon."""
    for path in (room.broker_at, room.takeover_at):
        end = socket.socket(socket.AF_UNIX, socket.SOCK_STREAM)
        end.bind(path)
        end.close()
    old = os.lstat(room.broker_at).st_ino
    broker = room.broker("seat 1", "ask getattr 1")
    until = time.monotonic() + WAIT
    while os.lstat(room.broker_at).st_ino == old and time.monotonic() < until:
        time.sleep(0.005)
    same(stat.S_IMODE(os.lstat(room.broker_at).st_mode), 0o600)
    daemon = room.mount()
    broker.ends(["seat 1", f"answer 1 {ATTR_1}", "ended"])
    daemon.ends(["serving 1", "ended"])
    same(stat.S_IMODE(os.lstat(room.takeover_at).st_mode), 0o600)
    same(sorted(os.listdir(room.path)), ["m", "script", "takeover.sock"])


# Refuses the allocation whose number stands in the file that the environment names, counted from when it is put there.
REFUSING = r"""
#define _GNU_SOURCE
#include <dlfcn.h>
#include <fcntl.h>
#include <stdlib.h>
#include <sys/mman.h>
static void *(*next_malloc)(size_t), *(*next_realloc)(void *, size_t);
static long *left;
__attribute__((constructor)) static void begin(void) {
    next_malloc = dlsym(RTLD_NEXT, "malloc");
    next_realloc = dlsym(RTLD_NEXT, "realloc");
    left = mmap(NULL, sizeof(long), PROT_READ | PROT_WRITE, MAP_SHARED, open(getenv("REFUSED"), O_RDWR), 0);
}
static int refused(void) { return *left > 0 && __sync_sub_and_fetch(left, 1) == 0; }
void *malloc(size_t size) { return refused() ? NULL : next_malloc(size); }
void *realloc(void *old, size_t size) { return refused() ? NULL : next_realloc(old, size); }
"""


class Refusals:
    """Refuses one allocation of a process that is started with its environment."""

    def __init__(self, room):
        room.write("refusing.c", REFUSING.encode())
        words = ["cc", "-O1", "-shared", "-fPIC", "-o", "refusing.so", "refusing.c", "-ldl"]
        same(run_to_end(words, cwd=room.path)[0], 0)
        room.write("left", bytes(8))
        with open(f"{room.path}/left", "r+b") as file:
            self.left = mmap.mmap(file.fileno(), 8)
        self.env = {"LD_PRELOAD": f"{room.path}/refusing.so", "REFUSED": f"{room.path}/left"}

    def refuse(self, number):
        """Lets the allocation with this number be refused, counted from here on."""
        self.left[:] = struct.pack("q", number)

    def was_refused(self):
        """Returns whether that allocation came. None is refused from here on."""
        was_refused = struct.unpack("q", self.left)[0] == 0
        self.left[:] = bytes(8)
        return was_refused


def each_is_refused(turn):
    """Makes a turn with each of its allocations refused, and then one with none. A turn returns whether one was."""
    count = next((number for number in range(100) if not turn(number + 1)), 100)
    if not 0 < count < 100:
        raise AssertionError(f"{count} allocations were refused")


class Asking:
    """A daemon of which allocations are refused, at a broker that speaks by hand."""

    def __init__(self, room):
        self.refusals = Refusals(room)
        self.daemon, self.first, self.worker = mounted_by_hand(room, env=self.refusals.env)

    def ask(self, opcode, unique, number, body):
        """Answers a Take by an ask, and returns the error and the body of its reply. The next Take is read then."""
        name, reply = self.worker.ask("Ask", request(opcode, unique, number, body))
        same((name, reply[:8]), ("Post", u64(1)))
        same(self.worker.ask("Posted"), ("Take", u64(1)))
        return struct.unpack("<i", reply[12:16])[0], reply[24:]

    def look_up(self, unique, name):
        """Asks for the number of a name in the root, and returns it."""
        error, body = self.ask(1, unique, 1, name + b"\0")
        same(error, 0)
        return struct.unpack("<Q", body[:8])[0]

    def forget(self, unique, items):
        """Answers a Take by a batch of forgets. The next Take is read then."""
        body = struct.pack("<II", len(items), 0) + b"".join(struct.pack("<QQ", *item) for item in items)
        same(self.worker.ask("Ask", request(42, unique, 0, body)), ("Take", u64(1)))

    def ends(self):
        self.worker.send("Ended")
        self.daemon.ends(["serving 1", "ended"])


@row_of_proved
def forgets_are_not_lost_for_want_of_memory(room):
    """A batch of forgets is served where any allocation behind it is refused: what it says is forgotten."""
    it = Asking(room)

    def turn(number):
        unique = 10 * number
        src, readme = it.look_up(unique, b"src"), it.look_up(unique + 1, b"README")
        it.refusals.refuse(number)
        it.forget(unique + 2, [(src, 1), (readme, 1)])
        was_refused = it.refusals.was_refused()
        same([it.ask(3, unique + 3, forgot, bytes(16))[0] for forgot in (src, readme)], [-116, -116])
        return was_refused

    each_is_refused(turn)
    it.ends()


@row_of_proved
def a_daemon_serves_on_where_memory_for_a_take_or_a_post_is_refused(room):
    """Any allocation of a Take, a Post and looks that find nothing may be refused to a daemon: it serves on, and asks the
    same again where a name found no memory."""
    it = Asking(room)

    def turn(number):
        it.refusals.refuse(number)
        same(it.ask(3, 2 * number, 1, bytes(16))[0], 0)
        it.ask(1, 2 * number + 1, 1, b"src\0")
        for _ in range(20):
            same(it.worker.ask("Empty"), ("Take", u64(1)))
        return it.refusals.was_refused()

    each_is_refused(turn)
    same(it.look_up(1, b"src"), 2)
    it.ends()


@row_of_proved
def a_broker_serves_on_where_memory_for_a_take_or_a_post_is_refused(room):
    """Any allocation of a Take or a Post may be refused to a broker: no connection of the daemon ends, and each ask is
    answered. A line of the script that finds no memory is refused."""
    refusals = Refusals(room)
    asks = 20
    broker = room.broker("seat 1", *["ask getattr 1"] * asks, env=refusals.env)
    first, worker = room.peer(), room.peer()
    worker.attach(first.attach())
    same(first.ask("Mount"), ("Mounted", u64(1)))

    def post(text):
        same(worker.ask("Post", u64(1) + struct.pack("<Ii", 16, -5) + text[8:16]), ("Posted", b""))

    def turn(number):
        # The script's next line mostly waits for its answer by then.
        time.sleep(0.02)
        refusals.refuse(number)
        name, text = worker.take_ask(1)
        same(name, "Ask")
        same(worker.ask("Post", u64(1) + bytes(160)), ("NotAsked", b""))
        was_refused = refusals.was_refused()
        post(text)
        return was_refused

    each_is_refused(turn)
    while (taken := worker.take_ask(1))[0] == "Ask":
        post(taken[1])
    broker.printed("ended")
    answered = [f"answer {number} error EIO" for number in range(1, asks + 1 - broker.lines.count("refused NoMemory"))]
    same([line for line in broker.lines if line != "refused NoMemory"], ["seat 1", *answered, "ended"])


@row
def folders_that_killed_processes_left(room):
    """Sixty-four folders beside a socket's place, each with a socket that nobody listens at any more, are removed."""
    for number in range(1, 65):
        os.mkdir(f"{room.path}/broker.sock.{number}")
        with socket.socket(socket.AF_UNIX, socket.SOCK_STREAM) as left:
            left.bind(f"{room.path}/broker.sock.{number}/s")
    room.broker("seat 1")
    same([it for it in os.listdir(room.path) if it.startswith("broker.sock")], ["broker.sock"])


@row
def too_few_descriptors(room):
    """A daemon that can't open all that it needs says so before it has the seat, which the next daemon gets."""
    room.broker("seat 1")
    room.write("m", MANIFEST)
    words = ["daemon", "--mount", "--workers", "16", "broker.sock", "takeover.sock", "m"]
    for limit in range(24, 96, 8):
        program, room.program = room.program, "/bin/sh"
        daemon = room.run("-c", f'ulimit -n {limit}; exec "$0" "$@"', program, *words)
        room.program = program
        daemon.ends(["fault: no broker"], 1, "Too many open files")
    room.mount("--workers", "16").printed("serving 1")


@row
def an_empty_folder_that_is_old_is_removed(room):
    """A folder beside a socket that a killed process left empty is removed by the next one that listens there, unless it is
    less than a minute old: then who made it may be about to listen."""
    room.broker("seat 1", "seat 2")
    old, young, full = (f"{room.takeover_at}.{number}" for number in (1, 2, 3))
    for path in (old, young, full):
        os.mkdir(path)
    room.write(f"{os.path.basename(full)}/kept", b"")
    for path in (old, full):
        os.utime(path, (1, time.time() - 90))
    os.utime(young, (1, time.time() - 20))
    daemon = room.mount()
    daemon.printed("serving 1")
    same([os.path.exists(path) for path in (old, young, full)], [False, True, True])
    same(sorted(glob.glob(f"{room.takeover_at}.*")), [young, full])
