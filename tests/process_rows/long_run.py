"""Rows: takeovers one behind another in one mount, under load. Behind each the next daemon's image is compared with what
the broker says is held."""
import itertools

from process_rows.checks import PATIENCE, WAIT, row, same
from process_rows.counts import check_lines, counts_of, image_of
from process_rows.proxies import Proxy

WORKERS = "4"
# How many directories are made at first, and how many of them the kernel goes on to hold.
MADE = 150


def files_of(rounds):
    """Returns what a run looks up and makes."""
    return {
        "src": "dir 0755 0 2", "README": "file 0644 7 1",
        **{f"d{number}": "dir 0700 0 2" for number in range(MADE + rounds)},
    }


def block_of(number):
    """Returns what is asked while a takeover goes on: numbers 2 and 3 are those of `src` and `README`, and the
    directories have those behind them."""
    made, old = MADE + number - 1, number - 1
    looks = [("ask lookup 1 src", "ask getattr 2"), ("ask lookup 1 README", "ask getattr 3")]
    lines = [*itertools.chain(*looks * 4), f"ask mkdir 1 0700 d{made}", f"ask lookup 1 d{made}", f"ask getattr {4 + made}"]
    return [*lines, "forget 2 3", *itertools.chain(*looks * 4), "forget 3 5", f"forget {4 + old} 1", "ask getattr 1"]


def script_of(rounds):
    """Returns a broker's script. In each round a daemon takes over, and an image is taken by hand, which costs a
    generation too."""
    script = ["seat 1", "ask lookup 1 src", "ask lookup 1 README"]
    script += [f"ask mkdir 1 0700 d{number}" for number in range(MADE)]
    for number in range(1, rounds + 1):
        script += [*block_of(number), f"seat {2 * number}", "idle", "held", f"seat {2 * number + 1}"]
    return script


class LongRun:
    """A mount that is taken over from daemon to daemon."""

    def __init__(self, room, rounds):
        self.room, self.rounds, self.script = room, rounds, script_of(rounds)
        self.broker = room.broker(*self.script)
        options = ("--workers", WORKERS, "--patience", PATIENCE)
        self.daemon = room.run("daemon", "--mount", "broker.sock", "t0", "m", *options)
        self.daemon.printed("serving 1")
        self.next = self.proxy = None
        self.prepare(1)
        self.images = []

    def prepare(self, number):
        """Starts the next daemon, which waits for the answer to its offer."""
        path = f"{self.room.path}/t{number}"
        self.proxy = Proxy(self.room, path, f"{self.room.path}/t{number - 1}", 1 << 30, None, False)
        words = ("broker.sock", f"t{number}", "m", "--workers", WORKERS, "--patience", PATIENCE)
        self.next = self.room.run("daemon", "--takeover", *words)

    def take_over(self, number):
        """Lets the next daemon take over while the kernel asks, and takes its image once the kernel asks no more."""
        old, proxy, self.daemon = self.daemon, self.proxy, self.next
        self.broker.printed(f"seat {2 * number - 1}")
        proxy.may_begin.set()
        if number < self.rounds:
            self.prepare(number + 1)
        self.daemon.printed(f"serving {2 * number}")
        same(old.ending(), ("handed over", 0))
        check_daemon(old, number - 1)
        proxy.thread.join(WAIT)
        same(proxy.wrong, None)
        self.broker.awaits(lambda lines: lines[-1].startswith(("held ", "idle")), "idle")
        version = 1 + number % 4
        generation, image = image_of(f"{self.room.path}/t{number}", version)
        same(generation, 2 * number)
        self.images.append(counts_of(image, version, generation))

    def finish(self):
        """Compares all that the kernel was told, and each image with what was held then."""
        same(self.daemon.ending(), ("ended", 0))
        same(self.broker.ending(), ("ended", 0))
        check_lines(self.script, self.broker.lines, files_of(self.rounds), 0)
        held, is_within = [], False
        for line in self.broker.lines:
            if line == "idle":
                held.append({})
            elif line.startswith("held "):
                number, count = line.split(" ")[1:]
                held[-1][int(number)] = int(count)
        for number, (image, wanted) in enumerate(zip(self.images, held, strict=True), 1):
            if image != wanted:
                raise AssertionError(f"behind takeover {number} the daemon counts {image}, and the kernel holds {wanted}")


def check_daemon(daemon, number):
    """Fails where a daemon that handed over printed other lines, by the number of its takeover. It may be offered the next
    one before it says that it serves behind the image."""
    served = ["serving 1"] if number == 0 else [f"serving {2 * number}", f"serving {2 * number + 1}"]
    if daemon.lines[:-1] not in (served, served[:1]):
        raise AssertionError(f"takeover {number} printed {daemon.lines}")


def run_long(room, rounds, tell=lambda number: None):
    """Lets daemons take over one behind another, `rounds` times."""
    it = LongRun(room, rounds)
    for number in range(1, rounds + 1):
        it.take_over(number)
        tell(number)
    it.finish()


@row
def twenty_takeovers_under_load(room):
    """Twenty takeovers in one mount while the kernel asks, with four workers: behind each the daemon counts what is held."""
    run_long(room, 20)
