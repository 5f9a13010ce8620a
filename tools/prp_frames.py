"""Frames of a PRP line, turned into tagged ones as nippitsun_from_prp turns them (document 02, order 7), and a count of what became
of those of a capture."""
import struct
import zlib
from collections import Counter

from choosing import FRAME_MOST

VLAN_TYPE, TAG_TYPE = b"\x81\x00", b"\xf1\xc1"
TAG = 6
LANS = {0xA: 0, 0xB: 1}
# What a trailer of the kind ends in, behind its four bytes of number, LAN and size.
KINDS = {"first": b"", "2012": b"\x88\xfb"}
CHECK_SEQUENCE = 4
# So many bytes behind a trailer are looked for: those that an empty frame is padded by, to 60.
BEHIND_MOST = 46

TOO_LONG, SHORT, TAGGED, NO_TRAILER = 3, 4, 13, 16
WORDS = {
    TOO_LONG: f"the tagged frame would pass {FRAME_MOST} bytes",
    SHORT: "shorter than header and trailer together",
    TAGGED: "F1C1 at the type field: is the line a PRP line?",
    NO_TRAILER: "no trailer of the kind '{kind}' with a fitting size and a LAN of A or B at the end",
}


def from_prp(frame, kind):
    """The network and the tagged frame; or the refusal, and nothing."""
    end = KINDS[kind]
    width = 4 + len(end)
    type_at = 16 if frame[12:14] == VLAN_TYPE else 12
    body_at = type_at + 2
    if len(frame) - width + TAG > FRAME_MOST:
        return TOO_LONG, None
    if len(frame) < body_at + width:
        return SHORT, None
    if frame[type_at:body_at] == TAG_TYPE:
        return TAGGED, None
    bare = frame[:-width]
    number, word = struct.unpack_from(">HH", frame, len(bare))
    lan, size = word >> 12, word & 0xFFF
    if lan not in LANS or size != len(frame) - body_at or not frame.endswith(end):
        return NO_TRAILER, None
    return LANS[lan], bare[:type_at] + TAG_TYPE + struct.pack(">HH", 0, number) + bare[type_at:]


def cause_of(frame, kind):
    """Why a frame has no trailer of this kind, as far as its bytes tell."""
    if frame[-CHECK_SEQUENCE:] == struct.pack("<I", zlib.crc32(frame[:-CHECK_SEQUENCE])):
        return "end in a frame check sequence: capture without it, or take it off with editcap -L -C -4"
    for other in KINDS:
        if from_prp(frame, other)[1]:
            return f"have a trailer of the kind '{other}': is that the line's setting?"
    for behind in range(1, BEHIND_MOST + 1):
        if from_prp(frame[:-behind], kind)[1]:
            if any(frame[-behind:]):
                return "have other bytes behind the trailer: does a tap or a card put its own there?"
            return "have zeros behind the trailer: a switch or a card has padded them, and a receiver refuses them too"
    end = KINDS[kind]
    if end and frame.endswith(end):
        return f"end in {end.hex().upper()}, but LAN is not A or B or the size does not fit: were they changed on the way?"
    return "have no trailer that is known: a station without PRP sends none"


class Line:
    """A capture of one LAN of a PRP line: the frames that can be turned, and a count of the others."""

    def __init__(self, name, network, kind):
        self.name, self.network, self.kind = name, network, kind
        self.turned = self.crossed = 0
        self.refused, self.causes = Counter(), Counter()

    def turn(self, frame):
        """The network that LAN gives and the tagged frame; or nothing, and it is counted."""
        answer, tagged = from_prp(frame, self.kind)
        if tagged is None:
            self.refused[answer] += 1
            if answer == NO_TRAILER:
                self.causes[cause_of(frame, self.kind)] += 1
            return None
        self.turned += 1
        self.crossed += answer != self.network
        return answer, tagged

    def summary(self):
        """Lines for whoever gave the capture."""
        yield f"{self.name}: {self.turned} of {self.turned + sum(self.refused.values())} frames turned"
        if self.crossed:
            other = 1 - self.network
            yield (f"{self.name}: {self.crossed} of these have LAN {'AB'[other]} and are arrivals on network {other}: are the captures in"
                   " the wrong order, or the lines crossed?")
        for refusal, count in sorted(self.refused.items()):
            yield f"{self.name}: {count} left out, refused with {refusal}: {WORDS[refusal].format(kind=self.kind)}"
        for cause, count in sorted(self.causes.items()):
            yield f"{self.name}: {count} of those refused with {NO_TRAILER} {cause}"
