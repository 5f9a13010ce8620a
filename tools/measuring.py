"""What two captures by one clock show of a stream: its losses, the distance of its twins and, where T is known, J.

Numbers are unwrapped to indices over both networks, in the order of the time stamps: each arrival gets the index nearest to the
highest so far, so arrivals that follow each other must lie less than 32768 apart. One that lies JUMP or more away begins a
stretch of its own: the sender restarted, or both networks were out. No figure goes across stretches.
"""
import heapq
import math
from fractions import Fraction

from capture_files import Refused, read_capture
from choosing import FRAME_MOST, NUMBERS

# Twice the largest window: a network may be so far behind the other and is still measured.
JUMP = 1024
# Stretches that may still get a late copy.
RECENT = 8
# A straight line through fewer points says little.
POINTS_LEAST = 30


def tagged(frame, length):
    """The key and the number of a frame with a redundancy tag, if its length is allowed. What stands behind the tag may have been
    cut when it was captured."""
    at, vlan = 12, 0
    if frame[12:14] == b"\x81\x00":
        at, vlan = 16, int.from_bytes(frame[14:16], "big") & 0xFFF
    if frame[at:at + 2] != b"\xf1\xc1" or len(frame) < at + 6 or not at + 8 <= length <= FRAME_MOST:
        return None
    return (frame[:6], vlan), int.from_bytes(frame[at + 4:at + 6], "big")


def show_key(key):
    return f"{key[0].hex(':')},{key[1]}"


def show_reflected(counts):
    """Frames of each network that are left out, as a receiver refuses them: what a tap reflects is no copy."""
    return f"{counts[0]} frames on network 0 and {counts[1]} on network 1 have a group source, which a receiver refuses with 14"


class Stretch:
    """Arrivals none of which lies JUMP or more from the highest index before it."""

    def __init__(self, number):
        self.first = self.highest = NUMBERS + number
        self.farthest = self.repeated = 0
        self.copies = {}

    def distance(self, number):
        half = NUMBERS // 2
        return (number - self.highest + half) % NUMBERS - half

    def add(self, time, network, number):
        away = self.distance(number)
        index = self.highest + away
        self.farthest = max(self.farthest, abs(away))
        self.highest = max(self.highest, index)
        soonest, latest, count, networks = self.copies.get(index, (time, time, 0, 0))
        self.repeated += networks >> network & 1
        self.copies[index] = min(soonest, time), max(latest, time), count + 1, networks | 1 << network

    def gaps(self):
        """How many indices have no copy, in each hole between two that have one."""
        indices = sorted(self.copies)
        return [after - before - 1 for before, after in zip(indices, indices[1:]) if after - before > 1]

    def spread(self, spacing):
        """The largest arrival less index times T, less the smallest."""
        # In whole parts of a nanosecond: fractions are slow.
        times, parts = spacing.numerator, spacing.denominator
        late = max(parts * latest - index * times for index, (_, latest, _, _) in self.copies.items())
        return Fraction(late - min(parts * soonest - index * times for index, (soonest, _, _, _) in self.copies.items()), parts)

    def slope(self, spacing):
        """How much arrival less index times T grows with each index: the straight line of least squares through the first
        copies."""
        start, each = min(soonest for soonest, _, _, _ in self.copies.values()), float(spacing)
        points = [(index - self.first, soonest - start - (index - self.first) * each)
                  for index, (soonest, _, _, _) in self.copies.items()]
        middle = sum(x for x, _ in points) / len(points)
        below = sum((x - middle) ** 2 for x, _ in points)
        return sum((x - middle) * y for x, y in points) / below if below else 0.


class Measured:
    def __init__(self, key, frames, reflected, stretches, back):
        self.key = key
        self.frames = frames
        self.reflected = reflected
        self.stretches = stretches
        self.back = back
        copies = [entry for stretch in stretches for entry in stretch.copies.values()]
        self.indices = len(copies)
        self.on_both = sum(networks == 3 for _, _, _, networks in copies)
        self.with_twins = sum(count > 1 for _, _, count, _ in copies)
        self.twins = max(latest - soonest for soonest, latest, _, _ in copies)
        gaps = [gap for stretch in stretches for gap in stretch.gaps()]
        self.losses = max(gaps, default=0)
        self.missing = sum(gaps)
        self.farthest = max(stretch.farthest for stretch in stretches)
        self.repeated = sum(stretch.repeated for stretch in stretches)

    def spread(self, spacing):
        return max(stretch.spread(spacing) for stretch in self.stretches)

    def better_spacing(self, spacing):
        """A T with which the arrivals spread over three quarters or less, if there is one; by the longest stretch."""
        longest = max(self.stretches, key=lambda stretch: len(stretch.copies))
        if len(longest.copies) < POINTS_LEAST:
            return None
        spread = self.spread(spacing)
        if not spread:
            return None
        # To so many places that it drifts by a tenth of the spread at most.
        place = Fraction(10) ** math.floor(math.log10(spread / (10 * len(longest.copies))))
        other = place * round((spacing + Fraction(longest.slope(spacing))) / place)
        return other if other > 0 and 4 * self.spread(other) <= 3 * spread else None


def of_network(name, network, found, reflected):
    """Arrivals of each key are put into `found`, and those with a group source counted in `reflected`. How many time stamps are
    earlier than the one before."""
    last, back = None, 0
    for time, length, frame in read_capture(name):
        if last is not None and time < last:
            back += 1
        last = time
        seen = tagged(frame, length)
        if seen and frame[6] & 1:
            reflected.setdefault(seen[0], [0, 0])[network] += 1
        elif seen:
            found.setdefault(seen[0], ([], []))[network].append((time, network, seen[1]))
    return back


def measure(names, key=None):
    """The figures of the captures of network 0 and network 1, for one stream."""
    found, reflected = {}, {}
    back = sum(of_network(name, network, found, reflected) for network, name in enumerate(names))
    if not found:
        raise Refused("no frame with a redundancy tag and an individual source in either capture")
    there = "; ".join(f"{show_key(k)} ({len(found[k][0])} and {len(found[k][1])} frames)" for k in sorted(found))
    if key is None and len(found) > 1:
        raise Refused(f"more than one stream, --key chooses one of {there}")
    if key is None:
        key = next(iter(found))
    if key not in found:
        raise Refused(f"no frame of {show_key(key)}; there are {there}")
    networks = found[key]
    stretches, recent = [], []
    for time, network, number in heapq.merge(*(sorted(arrivals) for arrivals in networks)):
        # The stretch used last comes first. A late copy from before a jump still finds its own.
        near = next((s for s in recent if abs(s.distance(number)) < JUMP), None)
        if near is None:
            near = Stretch(number)
            stretches.append(near)
        elif near is not recent[0]:
            recent.remove(near)
        if not recent or near is not recent[0]:
            recent = [near] + recent[:RECENT - 1]
        near.add(time, network, number)
    measured = Measured(key, [len(arrivals) for arrivals in networks], reflected.get(key), stretches, back)
    if not measured.on_both:
        why = show_reflected(measured.reflected) if measured.reflected else "are they of the same time, and by one clock?"
        raise Refused(f"no index of {show_key(key)} is in both captures: {why}")
    return measured
