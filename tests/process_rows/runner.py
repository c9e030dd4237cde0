"""Runs rows side by side, each in a folder of its own, and tells which of them failed."""
import concurrent.futures
import itertools
import os
import subprocess
import sys
import tempfile
import time
import traceback

from process_rows.checks import ROWS, ROWS_OF_PROVED, TOP, TooSlow
from process_rows.rooms import Room

HERE = os.path.dirname(os.path.abspath(__file__))
AT_A_TIME = 4
# How often a row whose failure shows little runs again, and the share of the wanted processor time from which a host
# that takes it away makes a failure show little: then daemons may miss the bounds of time that they have for each other.
TRIES = 3
MUCH_STOLEN = 0.1


def program_at(words):
    """Returns the program that the words begin with, or the proved one, and the words behind it."""
    program = words[0] if words else f"{TOP}/crates/edend/out/edend"
    if not os.path.isfile(program):
        command = os.path.relpath(sys.argv[0], TOP)
        sys.exit(f"{command}: {program} is not there: build it by 'rt ci' at the top, or by 'rt run' in crates/edend")
    return os.path.abspath(program), words[1:]


def is_unproved(program):
    """Returns whether a program was built without a proof: such a one checks its addresses at run time."""
    with open(program, "rb") as file:
        return b"AddressSanitizer" in file.read()


class Outcome:
    """How a row went: how many seconds it took, what went wrong, and why that shows little, where it does."""

    def __init__(self):
        self.took, self.wrong, self.excuse = 0, None, None

    def fails(self, error, room, stolen):
        """Notes an error, and that it shows little where it is one of time, or where the host took much time away."""
        self.wrong = f"{type(error).__name__} {error} ({lines_of(error)}); printed {room.printed()}"
        if stolen > MUCH_STOLEN:
            self.excuse = f"the host took {stolen:.0%} of the processors away"
        elif room.is_late or is_of_time(error):
            self.excuse = "something did not come in time"

    def line(self, shows, tells_times):
        """Returns the line that tells of it."""
        time_of_it = f"{self.took:.1f} s, {shows.__name__}: " if tells_times else ""
        return f"{time_of_it}{shows.__doc__.splitlines()[0]} {'FAILED: ' + self.wrong if self.wrong else 'ok'}"


def processor_times():
    """Returns how much of the processors' time was wanted so far, and how much of that the host took away: user, nice,
    system, idle, iowait, irq, softirq and steal of the first line of /proc/stat (`proc(5)`)."""
    with open("/proc/stat") as file:
        times = [int(it) for it in file.readline().split()[1:9]]
    return sum(times) - times[3] - times[4], times[7]


def stolen_since(then):
    """Returns the share of the time that was wanted since then which the host took away."""
    wanted, stolen = (new - old for new, old in zip(processor_times(), then))
    return stolen / max(wanted, 1)


def is_of_time(error):
    """Returns whether an error, or one that it comes from, is that something did not come in time."""
    while error is not None and not isinstance(error, (TooSlow, TimeoutError, subprocess.TimeoutExpired)):
        error = error.__cause__
    return error is not None


def attempt(shows, program, is_proved, room_type):
    """Runs a row in a folder of its own, and returns its outcome."""
    began, times, it = time.monotonic(), processor_times(), Outcome()
    with tempfile.TemporaryDirectory(dir="/tmp", ignore_cleanup_errors=True) as path:
        room = room_type(path, program, is_proved)
        try:
            shows(room)
        except Exception as error:
            it.fails(error, room, stolen_since(times))
        finally:
            room.clear()
    it.took = time.monotonic() - began
    return it


def lines_of(error):
    """Returns the lines of rows that an error came through."""
    frames = traceback.extract_tb(error.__traceback__)
    return ", ".join(f"{os.path.basename(it.filename)}:{it.lineno}" for it in frames if it.filename.startswith(HERE))


def rows_of(words, is_proved, command):
    """Returns the rows whose name has one of the words, or each row where there is no word."""
    rows = [it for it in ROWS if not words or any(word in it.__name__ for word in words)]
    left_out = [] if is_proved else [it for it in rows if it in ROWS_OF_PROVED]
    if left_out:
        print(f"{command}: left out, for a program without a proof: {[it.__name__ for it in left_out]}")
    return [it for it in rows if it not in left_out]


def run_again(row, outcome, run, tries):
    """Runs a row by itself, `tries` times at most, as long as its failure shows little, and tells why. Returns its last
    outcome."""
    for _ in range(tries):
        if outcome.excuse is None:
            break
        print(f"{row.__name__} runs again by itself, since {outcome.excuse}: {outcome.wrong}", flush=True)
        outcome = run(row)
    return outcome


def outcomes(rows, run, at_a_time, tries):
    """Runs rows side by side, and behind them those again whose failure shows little. Returns each row with its
    outcome."""
    again = []
    with concurrent.futures.ThreadPoolExecutor(at_a_time) as pool:
        for row, outcome in zip(rows, pool.map(run, rows)):
            if outcome.excuse is None:
                yield row, outcome
            else:
                again.append((row, outcome))
    for row, outcome in again:
        yield row, run_again(row, outcome, run, tries)


def run_rows(words, command="tests/processes", room_type=Room, at_a_time=AT_A_TIME):
    """Runs the rows that a command's words pick: options, the program, and words that names of rows have. Returns the
    status."""
    options = list(itertools.takewhile(lambda it: it in ("-v", "--once"), words))
    program, words = program_at(words[len(options) :])
    tells_times, tries = "-v" in options, 0 if "--once" in options else TRIES
    passed = failed = 0
    is_proved = not is_unproved(program)
    rows = rows_of(words, is_proved, command)
    for row, outcome in outcomes(rows, lambda it: attempt(it, program, is_proved, room_type), at_a_time, tries):
        passed, failed = passed + (not outcome.wrong), failed + bool(outcome.wrong)
        print(outcome.line(row, tells_times), flush=True)
    print(f"{command}: {passed} passed, {failed} failed")
    return 1 if failed else 0
