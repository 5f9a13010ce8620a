"""Frames with a redundancy tag or a PRP trailer, and captures of them in every form that is read: for tests."""
import struct

# What a PRP trailer ends in, by its kind.
PRP_ENDS = {"first": b"", "2012": b"\x88\xfb"}


def frame(number, vlan=None, dest="020000000001", payload=b"", source="020000000002"):
    tag = b"" if vlan is None else struct.pack(">HH", 0x8100, vlan)
    return bytes.fromhex(dest + source) + tag + struct.pack(">HHHH", 0xF1C1, 0, number, 0x0800) + payload


def prp(tagged, lan, kind, off=0):
    """The frame of a PRP line with a tagged frame's number, for a LAN. Its size may be off."""
    at = 16 if tagged[12:14] == b"\x81\x00" else 12
    bare, number, end = tagged[:at] + tagged[at + 6 :], tagged[at + 4 : at + 6], PRP_ENDS[kind]
    size = len(bare) - at - 2 + 4 + len(end) + off
    return bare + number + struct.pack(">H", lan << 12 | size) + end


def pcap(packets, order="<", nano=False, link=1, magic=None):
    """Packets are a time stamp in nanoseconds, the frame, and the length that it had, if it is not the frame's."""
    unit = 1 if nano else 1000
    out = struct.pack(order + "IHHIIII", magic or (0xA1B23C4D if nano else 0xA1B2C3D4), 2, 4, 0, 0, 262144, link)
    for time, data, *had in packets:
        seconds, rest = divmod(time, 10**9)
        assert rest % unit == 0
        out += struct.pack(order + "IIII", seconds, rest // unit, len(data), had[0] if had else len(data)) + data
    return out


def pcapng(packets, order="<", unit=None, interfaces=1, offset=0):
    """The unit is the option's byte for the time stamp: 9 is nanoseconds; 0x80 + n is parts of 2^n; none is microseconds.
    The offset is in seconds, and the time stamps count from there."""

    def block(kind, body):
        body += bytes(-len(body) % 4)
        size = struct.pack(order + "I", len(body) + 12)
        return struct.pack(order + "I", kind) + size + body + size

    parts = {None: 10**6, 9: 10**9, 0x8A: 2**10}[unit]
    options = b"" if unit is None else struct.pack(order + "HHBxxxHHqHH", 9, 1, unit, 14, 8, offset, 0, 0)
    out = block(0x0A0D0D0A, struct.pack(order + "IHHq", 0x1A2B3C4D, 1, 0, -1))
    out += block(1, struct.pack(order + "HHI", 1, 0, 0) + options) * interfaces
    out += block(5, bytes(12))
    for place, (time, data, *had) in enumerate(packets):
        stamp, rest = divmod((time - offset * 10**9) * parts, 10**9)
        assert rest == 0
        head = struct.pack(order + "IIIII", place % interfaces, stamp >> 32, stamp & 0xFFFFFFFF, len(data), had[0] if had else len(data))
        out += block(6, head + data)
    return out


FORMS = {
    "pcap, microseconds, low byte first": lambda p: pcap(p),
    "pcap, microseconds, high byte first": lambda p: pcap(p, ">"),
    "pcap, nanoseconds, low byte first": lambda p: pcap(p, "<", True),
    "pcap, nanoseconds, high byte first": lambda p: pcap(p, ">", True),
    "pcapng, microseconds, low byte first": lambda p: pcapng(p),
    "pcapng, microseconds, high byte first": lambda p: pcapng(p, ">"),
    "pcapng, nanoseconds, low byte first": lambda p: pcapng(p, "<", 9),
    "pcapng, nanoseconds, high byte first": lambda p: pcapng(p, ">", 9),
}
