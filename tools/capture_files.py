"""Captures of Ethernet frames: pcap with micro- or nanoseconds in either byte order, and pcapng."""
import struct

ETHERNET = 1
NANOSECONDS = 1_000_000_000


class Refused(Exception):
    pass


# Each reader yields the time stamp in nanoseconds, the bytes that the frame had, and those captured.


class Cursor:
    """The bytes of a file, read from the front."""

    def __init__(self, name, data):
        self.name = name
        self.data = data
        self.at = 0

    def left(self):
        return len(self.data) - self.at

    def take(self, count, what):
        if self.left() < count:
            raise Refused(f"{self.name}: the file ends within {what}")
        self.at += count
        return self.data[self.at - count : self.at]

    def numbers(self, layout, what):
        return struct.unpack(layout, self.take(struct.calcsize(layout), what))


def ethernet_only(name, link):
    if link != ETHERNET:
        raise Refused(f"{name}: link type {link} is not Ethernet")


PCAP = {
    b"\xd4\xc3\xb2\xa1": ("<", 1000),
    b"\xa1\xb2\xc3\xd4": (">", 1000),
    b"\x4d\x3c\xb2\xa1": ("<", 1),
    b"\xa1\xb2\x3c\x4d": (">", 1),
}


def read_pcap(file):
    order, unit = PCAP[file.take(4, "its header")]
    link = file.numbers(order + "HHIIII", "its header")[5]
    # The high bits say whether a frame check sequence stands behind each frame.
    if link >> 16:
        raise Refused(f"{file.name}: its frames carry a frame check sequence")
    ethernet_only(file.name, link)
    packet = 0
    while file.left():
        packet += 1
        what = f"packet {packet}"
        seconds, fraction, captured, original = file.numbers(order + "IIII", what)
        yield seconds * NANOSECONDS + fraction * unit, original, file.take(captured, what)


PCAPNG = b"\x0a\x0d\x0d\x0a"
SECTION, INTERFACE, SIMPLE, PACKET, OLD_PACKET = 0x0A0D0D0A, 1, 3, 6, 2
END_OF_OPTIONS, TIME_UNIT, TIME_OFFSET = 0, 9, 14


def clock_of(options, order):
    """Parts of a second in a time stamp, and the seconds to add."""
    parts, offset = 1_000_000, 0
    while options.left() >= 4:
        code, length = options.numbers(order + "HH", "an option")
        value = options.take(length, "an option")
        options.take(min(-length % 4, options.left()), "an option")
        if code == END_OF_OPTIONS:
            break
        if code == TIME_UNIT and length == 1:
            parts = 2 ** (value[0] & 0x7F) if value[0] & 0x80 else 10 ** value[0]
        if code == TIME_OFFSET and length == 8:
            (offset,) = struct.unpack(order + "q", value)
    return parts, offset


def read_pcapng(file):
    order, clocks, packet, only = "<", [], 0, None
    while file.left():
        start = file.take(8, "a block")
        if start[:4] == PCAPNG:
            mark = file.take(4, "a block")
            if mark not in (b"\x4d\x3c\x2b\x1a", b"\x1a\x2b\x3c\x4d"):
                raise Refused(f"{file.name}: a section with no byte order")
            order = "<" if mark[0] == 0x4D else ">"
            file.at -= 4
            clocks, only = [], None
        kind, size = struct.unpack(order + "II", start)
        if size < 12 or size % 4:
            raise Refused(f"{file.name}: a block of {size} bytes")
        body = Cursor(file.name, file.take(size - 12, "a block"))
        file.take(4, "a block")
        if kind == INTERFACE:
            link = body.numbers(order + "HHI", "a block")[0]
            ethernet_only(file.name, link)
            clocks.append(clock_of(body, order))
        elif kind in (SIMPLE, OLD_PACKET):
            raise Refused(f"{file.name}: a packet of a kind with no time stamp or long out of use")
        elif kind == PACKET:
            packet += 1
            what = f"packet {packet}"
            interface, high, low, captured, original = body.numbers(order + "IIIII", what)
            if interface >= len(clocks):
                raise Refused(f"{file.name}: {what} is of an interface that is not there")
            if only not in (None, interface):
                raise Refused(f"{file.name}: {what} is of a second interface: one file, one network")
            only = interface
            parts, offset = clocks[interface]
            time = (high << 32 | low) * NANOSECONDS // parts + offset * NANOSECONDS
            yield time, original, body.take(captured, what)


def read_capture(name):
    """The packets of a file, in its order."""
    try:
        with open(name, "rb") as opened:
            file = Cursor(name, opened.read())
    except OSError as error:
        raise Refused(f"{name}: {error.strerror}") from None
    front = file.data[:4]
    if front not in PCAP and front != PCAPNG:
        raise Refused(f"{name}: neither pcap nor pcapng")
    yield from read_pcap(file) if front in PCAP else read_pcapng(file)
