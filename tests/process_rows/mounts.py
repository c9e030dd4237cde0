"""Real mounts, the daemons that serve them, and the programs that work in them."""
import ctypes
import os
import shutil
import signal
import struct
import subprocess
import tempfile
import threading
import time

from process_rows.checks import PATIENCE, WAIT, TooSlow, same
from process_rows.counts import counts_of, image_of
from process_rows.proxies import Proxy
from process_rows.rooms import Room, Running, run_to_end, start

DEVICE = "/dev/fuse"
DROP_CACHES = "/proc/sys/vm/drop_caches"
# A checkout of 2,000 files in 40 directories, each file of another size, and a directory to work in.
DIRECTORIES, FILES = 40, 50
WORK = "work"
# After so many seconds a row is over: its processes are killed, and what waits for the mount fails.
LONGEST_ROW, LONGEST_ROW_OF_UNPROVED = 400, 800
CLONE_NEWNS = 0x20000
# The option by which the kernel keeps nothing: so each look of a program is a request, which rows are about.
ASKS_AGAIN = ("--valid", "0")
# The states of processes that were stopped, that ended, and that wait for what they forked to call exec.
AT_REST = {"T", "Z", "X", "Dkernel_clone", "D_do_fork", "Dwait_for_vfork_done"}
# The longest image of version 1, in bytes.
MOST_OF_VERSION_1 = 65_000
# Held while caches are dropped, which happens in each mount, and while one is compared with its daemon at rest.
CACHES = threading.RLock()


def size_of(directory, file):
    """Returns the size of a file of the checkout."""
    return directory * 1000 + file


def manifest():
    """Returns the manifest of the checkout."""
    lines = [f"commit {'01' * 20}", f"dir {WORK}"]
    for directory in range(DIRECTORIES):
        lines.append(f"dir d{directory}")
        lines += [f"file 0644 {size_of(directory, file)} d{directory}/f{file}" for file in range(FILES)]
    return "".join(f"{line}\n" for line in lines).encode()


def why_not():
    """Returns why no mount can be made here; none where one can."""
    try:
        os.close(os.open(DEVICE, os.O_RDWR))
    except OSError as error:
        return f"{DEVICE} can't be opened: {error.strerror}"
    if os.geteuid() != 0:
        return "only root may mount"
    if not os.access(DROP_CACHES, os.W_OK):
        return f"{DROP_CACHES} can't be written"
    if not can_mount():
        return "the system refuses such a mount"
    return None


def can_mount():
    """Tries a mount that nobody serves, in a process that has mounts of its own, and so leaves none behind."""
    child = os.fork()
    if child == 0:
        try:
            os._exit(tried())
        finally:
            os._exit(1)
    return os.waitpid(child, 0)[1] == 0


def tried():
    """Makes a mount on an empty folder, and returns the status of the command that mounts."""
    leave_others_alone()
    options = "fd=0,rootmode=40000,user_id=0,group_id=0,allow_other,default_permissions"
    with tempfile.TemporaryDirectory(dir="/tmp") as point, open(DEVICE, "r+b", buffering=0) as device:
        words = ["mount", "-i", "-t", "fuse", "-o", options, "edend", point]
        status = subprocess.run(words, stdin=device, stderr=subprocess.DEVNULL, check=False).returncode
        subprocess.run(["umount", "-l", point], stderr=subprocess.DEVNULL, check=False)
        return min(status, 1)


def leave_others_alone():
    """Gives this process mounts of its own. So they are gone with it, however it ends."""
    if ctypes.CDLL(None, use_errno=True).unshare(CLONE_NEWNS) == 0:
        run_to_end(["mount", "--make-rprivate", "/"])


def dying_with_us(*words):
    """Returns words that run others as a process that is killed when this one ends, where the system has `setpriv`."""
    setpriv = shutil.which("setpriv")
    return (setpriv, "--pdeathsig", "KILL", *words) if setpriv else words


def mounts_below(path):
    """Returns the paths at which something is mounted at a path or below it, the last one first."""
    with open("/proc/self/mountinfo") as file:
        points = [line.split(" ")[4] for line in file]
    return [it for it in reversed(points) if it == path or it.startswith(f"{path}/")]


def drop_caches(with_pages=False):
    """Has the kernel forget the entries and files that no program holds, in every mount; also what files contain, where
    that is said."""
    with CACHES, open(DROP_CACHES, "w") as file:
        file.write("3\n" if with_pages else "2\n")


def until(is_so, what, wait=WAIT):
    """Waits until something is so."""
    deadline = time.monotonic() + wait
    while not is_so():
        if time.monotonic() > deadline:
            raise TooSlow(f"{what} was awaited in vain")
        time.sleep(0.005)


class MountRoom(Room):
    """A folder with a place to mount at. Its processes end with this one."""

    rooms = []

    def __init__(self, path, program, is_proved):
        super().__init__(path, program, is_proved)
        self.mountpoint = f"{path}/mnt"
        os.mkdir(self.mountpoint)
        self.write("m", manifest())
        self.programs = []
        self.timer = threading.Timer(LONGEST_ROW if is_proved else LONGEST_ROW_OF_UNPROVED, self.end_late)
        self.timer.daemon = True
        self.timer.start()
        self.rooms.append(self)

    def inner(self):
        return MountRoom(tempfile.mkdtemp(dir=self.path), self.program, self.is_proved)

    def run(self, *words, **streams):
        first, *others = dying_with_us(self.program)
        it = Running(first, self.path, (*others, *words), **streams)
        it.words = words
        self.running.append(it)
        return it

    def mount_broker(self, *options, mountpoint="mnt", socket="broker.sock", valid=ASKS_AGAIN, **streams):
        """Starts a broker that mounts for whichever daemon comes. Where `valid` is empty, the kernel keeps what it is told."""
        return self.run("mount", mountpoint, socket, *valid, *options, **streams)

    def program_in(self, script, *words, **streams):
        """Starts a program that works in the mount."""
        it = Program(self, script, *words, **streams)
        self.programs.append(it)
        return it

    def end_late(self):
        """Kills all that runs here, since the row takes too long. Who waits for the mount is told ENOTCONN."""
        self.is_late = True
        self.kill_all()

    def kill_all(self):
        for it in [*self.running, *self.programs]:
            it.kill()

    def printed(self):
        return ["it took too long, and was ended"] * self.is_late + super().printed()

    def clear(self):
        """Ends all that runs here, and unmounts. The mount dies with its broker."""
        self.timer.cancel()
        try:
            self.kill_all()
            super().clear()
        finally:
            for point in mounts_below(self.path):
                run_to_end(["umount", "-l", point], stderr=subprocess.DEVNULL)
        if self in self.rooms:
            self.rooms.remove(self)


class Program:
    """A program of sh that works in the mount, in a session of its own. It works in rounds until it is to end, and adds
    a line to `rounds` behind each. What it prints on standard error is why it failed."""

    HEAD = """set -e
cd "$1"; end=$2; rounds=$3; shift 3
while [ ! -e "$end" ]; do
"""
    FOOT = """
echo >>"$rounds"
done"""

    def __init__(self, room, script, *words, directory=""):
        name = f"{room.path}/p{len(room.programs)}"
        self.end_at, self.rounds_at = f"{name}.end", f"{name}.rounds"
        self.script = script
        self.errors = open(f"{name}.errors", "w+b")
        words = (f"{room.mountpoint}/{directory}", self.end_at, self.rounds_at, *words)
        self.child = start(
            dying_with_us("sh", "-c", self.HEAD + script + self.FOOT, "sh", *words), stdin=subprocess.DEVNULL,
            stdout=subprocess.DEVNULL, stderr=self.errors, start_new_session=True,
        )

    def rounds(self):
        """Returns how many rounds it made."""
        return os.path.getsize(self.rounds_at) if os.path.exists(self.rounds_at) else 0

    def works_on(self):
        """Waits until a round is over that began from now on."""
        self.comes_to(self.rounds() + 2)

    def comes_to(self, count):
        """Waits until it made so many rounds, and shows that it goes on."""
        until(lambda: self.rounds() >= count or self.child.poll() is not None, f"{count} rounds", 3 * WAIT)
        same((self.child.poll(), self.said()), (None, ""))

    def said(self):
        self.errors.seek(0)
        return self.errors.read().decode("latin-1")

    def rest(self):
        """Stops it and the programs that it started, and waits until none of them is in a call."""
        os.killpg(self.child.pid, signal.SIGSTOP)
        until(lambda: states_of(self.child.pid) <= AT_REST, "a program at rest")

    def go_on(self):
        os.killpg(self.child.pid, signal.SIGCONT)

    def is_to_end(self):
        """Has it end behind its round."""
        with open(self.end_at, "w"):
            pass

    def ends(self):
        """Has it end behind its round, and shows that nothing failed."""
        self.is_to_end()
        status = self.child.wait(3 * WAIT)
        same((status, self.said()), (0, ""))
        if self.rounds() == 0:
            raise AssertionError(f"no round was made of {self.script}")

    def fails(self):
        """Waits for its end by an error, and returns what it said."""
        status = self.child.wait(WAIT)
        if status == 0:
            raise AssertionError("nothing failed")
        return self.said()

    def kill(self):
        try:
            os.killpg(self.child.pid, signal.SIGKILL)
        except ProcessLookupError:
            pass
        self.child.wait(WAIT)


def all_work_on(programs):
    """Waits until each program made a round that began from now on. They make these side by side."""
    for it, count in [(it, it.rounds() + 2) for it in programs]:
        it.comes_to(count)


def all_end(programs):
    """Has programs end behind their rounds, and shows that nothing failed. None makes a round more while others end."""
    for it in programs:
        it.is_to_end()
    for it in programs:
        it.ends()


def states_of(group):
    """Returns the states that processes of a group have, with what those wait for that no signal wakes."""
    states = set()
    for pid in filter(str.isdigit, os.listdir("/proc")):
        try:
            with open(f"/proc/{pid}/stat") as file:
                fields = file.read().rpartition(") ")[2].split(" ")
            if int(fields[2]) == group:
                with open(f"/proc/{pid}/wchan") as file:
                    states.add(fields[0] + (file.read() if fields[0] == "D" else ""))
        except OSError:
            pass
    return states


def states_of_threads(pid):
    """Returns the states that threads of a process have."""
    states = set()
    for thread in os.listdir(f"/proc/{pid}/task"):
        try:
            with open(f"/proc/{pid}/task/{thread}/stat") as file:
                states.add(file.read().rpartition(") ")[2][0])
        except OSError:
            pass
    return states


class Tap(Proxy):
    """A connection between daemons of which the image is kept. Before a frame is passed on something may be done."""

    def __init__(self, room, path, daemon_at, is_whole=False, at=None, does=None):
        self.at, self.does = at, does
        self.version, self.generation, self.image = None, None, b""
        super().__init__(room, path, daemon_at, 1 << 30, None, is_whole)
        self.may_begin.set()

    def sees(self, name, body):
        if name == "Choice":
            (self.version,) = struct.unpack(">H", body[4:])
        if name in ("Data", "Part"):
            (self.generation,) = struct.unpack(">Q", body[4:12])
            self.image += body[12 if name == "Data" else 20 :]
        if name == self.at:
            self.at = None
            self.does()

    def counts(self):
        """Returns how often the image counts each number, without those that it keeps at no count."""
        counts = counts_of(self.image, self.version, self.generation)
        return {number: count for number, count in counts.items() if count}


class Mount:
    """A checkout that is mounted, and the daemon that serves it. `tree` has the words by which a daemon finds its tree."""

    def __init__(self, room, *options, owner=None, valid=ASKS_AGAIN, tree=("m",), **streams):
        self.room = room
        self.tree = tree
        self.options = options if "--patience" in options else ("--patience", PATIENCE, *options)
        self.path = room.mountpoint
        is_left = os.path.exists(room.broker_at)
        owned = ("--owner", owner) if owner else ()
        self.broker = room.mount_broker("--held", "held", *owned, valid=valid, **streams)
        room.await_socket(room.broker_at, is_left)
        self.number = 0
        self.generation = 1
        self.daemon = room.run("daemon", "--mount", "broker.sock", "t0", *tree, *self.options)
        self.daemon.printed("serving 1")
        self.broker.printed("mounted 1")
        self.tap = None

    def at(self, name):
        """Returns the path of a name in the mount."""
        return f"{self.path}/{name}"

    def next_daemon(self, **taps):
        """Starts a daemon that takes over by a tap."""
        self.number += 1
        path = f"{self.room.path}/t{self.number}"
        self.tap = Tap(self.room, path, f"{self.room.path}/t{self.number - 1}", **taps)
        return self.room.run("daemon", "--takeover", "broker.sock", f"t{self.number}", *self.tree, *self.options)

    def take_over_at_rest(self):
        """Lets a new daemon take over once nothing is under way, and shows that the image counts what the kernel holds."""
        with CACHES:
            self.rest()
            held, image = self.take_over()
        same(image, held)

    def take_over(self):
        """Lets a new daemon take over. Returns how often the kernel held each number then, and how often the image counts
        it."""
        new = self.next_daemon()
        self.generation += 1
        new.printed(1)
        same(new.lines, [f"serving {self.generation}"])
        same(self.daemon.ending(), ("handed over", 0))
        self.daemon = new
        return self.held(self.generation), self.tap.counts()

    def held(self, generation):
        """Returns how often the kernel held each number when the seat went on at a generation."""
        with open(f"{self.room.path}/held") as file:
            lines = file.read().splitlines()
        held = {}
        for line in lines[lines.index(f"seat {generation}") + 1 :]:
            word, *numbers = line.split(" ")
            if word == "seat":
                break
            number, count = map(int, numbers)
            held[number] = count
        return held

    def rest(self):
        """Waits until neither the kernel nor a daemon has anything to do, for half a second. Of a program without a proof
        that can't be seen: its idle workers take much time."""
        if self.room.is_proved:
            until(lambda: all(self.is_idle() for _ in range(5)), "a mount at rest", 3 * WAIT)
        else:
            time.sleep(2)

    def is_idle(self):
        """Returns whether broker and daemon did next to nothing for a tenth of a second, and each of their threads waits
        then. One that has something to do doesn't wait, even if it gets no processor."""
        began = self.broker.used() + self.daemon.used()
        time.sleep(0.1)
        used = self.broker.used() + self.daemon.used() - began
        return used < 0.02 and all(states_of_threads(it.pid) <= {"S"} for it in (self.broker, self.daemon))

    def counts_what_is_held(self):
        """Shows at rest that the daemon counts what the kernel holds: it hands its image over, and claims the seat again.
        Under load a forget may come in between, since nobody sees that the kernel has one to send; then it hands over
        once more. Returns what is held."""
        with CACHES:
            for _ in range(4):
                counts, held = self.counts_and_held()
                if counts == held:
                    return held
            counts, held = self.counts_and_held()
        same(counts, held)
        return held

    def image(self):
        """Has the daemon hand its image over. Returns its version, the generation and the image. Version 1 has none of
        more than 65,000 bytes. Two thousand files that are held take 51,000, and each that was made and removed 11."""
        path, version = f"{self.room.path}/t{self.number}", 1 + self.generation % 4
        generation, image = image_of(path, version)
        if image is None:
            version = 2
            generation, image = image_of(path, version)
            same(len(image) > MOST_OF_VERSION_1, True)
        return version, generation, image

    def counts_and_held(self):
        """Has the daemon hand its image over and claim the seat again. Returns its counts, and what the kernel held then."""
        self.rest()
        version, generation, image = self.image()
        same(generation, self.generation)
        self.generation += 1
        self.daemon.printed(f"serving {self.generation}")
        counts = counts_of(image, version, generation)
        return {number: count for number, count in counts.items() if count}, self.held(self.generation)

    def unmount(self):
        """Unmounts, and shows that broker and daemon end well."""
        same(run_to_end(["umount", self.path])[0], 0)
        same(self.daemon.ending(), ("ended", 0))
        same(self.broker.ending(), ("ended", 0))
        same(mounts_below(self.path), [])
        same(os.path.exists(self.room.broker_at), False)


def clear_all():
    """Ends all that runs in each room, unmounts, and removes the rooms."""
    for room in list(MountRoom.rooms):
        room.clear()
        shutil.rmtree(room.path, ignore_errors=True)
