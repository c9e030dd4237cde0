"""What each row goes by: how it is listed, how long it waits, and how it compares."""
import os

TOP = os.path.dirname(os.path.dirname(os.path.dirname(os.path.abspath(__file__))))
# For how many seconds a row waits for what has to come, and how many milliseconds of silence daemons bear from each
# other. Both are long, since a machine may be loaded; a row that is about silence names a patience of its own.
WAIT = 60
PATIENCE = "60000"
ROWS, ROWS_OF_PROVED = [], []


def row(shows):
    """Lists a function as a row."""
    ROWS.append(shows)
    return shows


def row_of_proved(shows):
    """Lists a function as a row that a program without a proof can't pass."""
    ROWS_OF_PROVED.append(shows)
    return row(shows)


class TooSlow(AssertionError):
    """What took longer than it may, or has not come. On a loaded machine that shows little, so such a row runs once more
    by itself."""


def took_between(least, took, most, what):
    """Fails where something took as little as `least` seconds, or as much as `most`."""
    if took <= least:
        raise AssertionError(f"{what} after {took} s")
    if took >= most:
        raise TooSlow(f"{what} after {took} s")


def same(got, wanted):
    """Fails where two values differ."""
    if got != wanted:
        raise AssertionError(f"{got!r}, not {wanted!r}")
