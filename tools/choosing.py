"""Window L and reset time R from known delays. docs/INTEGRATION.md derives each formula.

Times are exact fractions, in nanoseconds: no rounding anywhere.
"""
import pathlib
import re
from fractions import Fraction

ROOT = pathlib.Path(__file__).resolve().parent.parent

# Document 01, "Sizes": read from the definitions, so that they stand in one place.
_sizes = (ROOT / "crates/record/specs/Sizes.antt").read_text()


def size(name):
    return int(re.search(rf"^{name} = (\d+)$", _sizes, re.M).group(1))


WINDOW_LEAST, WINDOW_MOST = size("window_least"), size("window_most")
TIME_LEAST, TIME_MOST = size("time_least"), size("time_most")
FRAME_MOST = size("frame_most")
NUMBERS = 65536


# Ticks that can fall into a stall of the machine that the receivers of host/ do not notice.
HIDDEN = 1


def least_window(spread, spacing, losses, traffic=False):
    """J, T, m: the least L with which every first arrival is handed up; with `traffic` from an open in its middle on, too."""
    overtaken = spread // spacing
    return max(WINDOW_LEAST, (2 * overtaken if traffic else overtaken) + losses + 2)


def match_fits(spread, spacing):
    """J, T: with the match rule, which knows only the last number, no twin comes behind the next frame."""
    return spread < spacing


def least_time(spread, tick, hidden=0):
    """J, the least time between two ticks, and the ticks that a stall can hide: the least R with which no twin comes behind
    a reset."""
    return max(TIME_LEAST, spread // tick + hidden + 2)


def farthest(time, tick, spread, spacing):
    """R, the most time between two ticks, J, T: how far an index can be from the highest handed up before a tick resets."""
    return (time * tick + spread) // spacing


def most_time(window, tick, spread, spacing):
    """The largest R with which no number comes round before the reset, and 0 or less if there is none."""
    # The largest R with floor((R tau + J) / T) <= room is the largest with R tau + J < (room + 1) T.
    room = (NUMBERS - window + 1) * spacing - spread
    return min(TIME_MOST, -(-room // tick) - 1)


def silence(time, tick, spread):
    """A sender that restarts its count and was silent for longer than this finds its stream reset."""
    return time * tick + spread


def start_wait(time, tick):
    """How long a receiver of host/ that starts opens no stream: R ticks, in which the last copy comes of what one before it may
    have handed up."""
    return time * tick


UNITS = {"ns": Fraction(1), "us": Fraction(10**3), "ms": Fraction(10**6), "s": Fraction(10**9)}


def parse_time(text):
    found = re.fullmatch(r"(\d+(?:\.\d+)?)(ns|us|ms|s)", text)
    if not found:
        if text == "0":
            return Fraction(0)
        raise ValueError(f"'{text}' is no time: a number and ns, us, ms or s, as in 125us")
    return Fraction(found.group(1)) * UNITS[found.group(2)]


def show_time(ns):
    """In the largest unit that gives a number of 1 or more."""
    for unit in ("s", "ms", "us", "ns"):
        if ns >= UNITS[unit] or unit == "ns":
            value = Fraction(ns) / UNITS[unit]
            if value.denominator == 1:
                return f"{value.numerator} {unit}"
            return f"{float(value):.12g} {unit}"
