"""Captures as tcpdump and Wireshark write them: classic pcap, and pcapng."""
import struct

from .times import LATEST, SECOND
from .wording import counted

MOST_OCTETS = 1 << 18  # of a packet, by any system's limits
BLOCK = 12  # octets of a block of pcapng at least
INTERFACE, OLD_PACKET, SIMPLE_PACKET, STATISTICS, PACKET = 1, 2, 3, 5, 6
LOST = (5, 7)  # options of a block of statistics: dropped by the interface, by the system
SECTION = b"\x0a\x0d\x0d\x0a"  # in either order
# Classic pcap by its first octets: the order of octets, and nanoseconds in a unit of time.
CLASSIC = {
    b"\xd4\xc3\xb2\xa1": ("<", 1000), b"\xa1\xb2\xc3\xd4": (">", 1000),
    b"\x4d\x3c\xb2\xa1": ("<", 1), b"\xa1\xb2\x3c\x4d": (">", 1),
}  # fmt: skip


class Unreadable(Exception):
    """Nothing can be read; the text says why."""


class Capture:
    """The packets of a capture: moment in microseconds since 1970, link type, octets, and whether octets are missing.

    `notes` has a line for each fault, `lost` the packets that each interface lost by the capture's own count, `at` how
    many octets were read."""

    def __init__(self, file):
        self.file, self.at, self.notes, self.lost = file, 0, [], {}
        self.begins = file.read(4)
        if not self.begins:
            raise Unreadable("is empty")
        if self.begins != SECTION and self.begins not in CLASSIC:
            raise Unreadable("is no capture: neither pcap nor pcapng")

    def packets(self):
        yield from self._next_generation() if self.begins == SECTION else self._classic()
        if any(self.lost.values()):
            self.note(f"the capture lost {counted(sum(self.lost.values()), 'packet')}, by its own count")

    def note(self, text):
        if text not in self.notes:
            self.notes.append(text)

    def _classic(self):
        read = self.file.read
        head = read(20)
        if len(head) < 20:
            raise Unreadable("ends within its header")
        order, unit = CLASSIC[self.begins]
        link = struct.unpack_from(order + "I", head, 16)[0] & 0xFFFF
        fields, self.at = struct.Struct(order + "4I").unpack, 24
        while len(head := read(16)) == 16:
            whole, part, kept, size = fields(head)
            if kept > MOST_OCTETS:
                self.note(f"a packet of {kept} octets can't be: reading stops at octet {self.at}")
                return
            octets = read(kept)
            if len(octets) < kept:
                break
            self.at += 16 + kept
            yield whole * SECOND + part * unit // 1000, link, octets, kept < size
        if head:
            self.note("the capture ends within a packet; what is before it was read")

    def _next_generation(self):
        order, interfaces, head = "<", [], self.begins + self.file.read(BLOCK - 4)
        while len(head) == BLOCK:
            if head[:4] == SECTION:
                order, interfaces = ">" if head[8:] == b"\x1a\x2b\x3c\x4d" else "<", []
            kind, size = struct.unpack_from(order + "2I", head)
            if size < BLOCK or size % 4 or size > 16 * MOST_OCTETS:
                self.note(f"a block of {size} octets can't be: reading stops at octet {self.at}")
                return
            body = head[8:] + self.rest(size - BLOCK)
            if len(body) < size - 8:
                break
            try:
                packet = self._block(order, kind, body[:-4], interfaces)
            except (struct.error, IndexError):
                self.note(f"the block at octet {self.at} can't be read")
                packet = None
            self.at += size
            if packet is not None:
                yield packet
            head = self.file.read(BLOCK)
        if head:
            self.note("the capture ends within a block; what is before it was read")

    def rest(self, size):
        """The next octets; a block may have more than a packet."""
        parts = []
        while size > 0 and (more := self.file.read(min(size, MOST_OCTETS))):
            parts.append(more)
            size -= len(more)
        return b"".join(parts)

    def _block(self, order, kind, body, interfaces):
        """The packet of a block, or None; an interface is put into the list."""
        if kind == INTERFACE:
            link = struct.unpack_from(order + "H", body)[0]
            options = dict(options_of(order, body[8:]))
            interfaces.append((link, resolution(options.get(9, b"\x06")), options.get(14, bytes(8))))
        elif kind in (PACKET, OLD_PACKET):
            number, high, low, kept, size = struct.unpack_from(order + "5I", body)
            if kind == OLD_PACKET:
                number = struct.unpack_from(order + "H", body)[0]
            link, (units, per), offset = interfaces[number]
            moment = (high << 32 | low) * units // per + struct.unpack(order + "q", offset)[0] * SECOND
            if 0 <= moment < LATEST:
                return moment, link, body[20 : 20 + kept], kept < size
            self.note("packets with a time that can't be are left out")
        elif kind == SIMPLE_PACKET:
            self.note("packets without a time (simple packet blocks) are left out")
        elif kind == STATISTICS:  # which count since the beginning of the capture
            counts = (value for code, value in options_of(order, body[12:]) if code in LOST)
            lost = sum(struct.unpack_from(order + "Q", value)[0] for value in counts)
            self.lost[struct.unpack_from(order + "I", body)[0]] = lost
        return None


def counts_losses(file):
    """Whether a capture counts lost packets, perhaps at its end. The file is left at its beginning."""
    if not file.seekable():
        return False
    capture = Capture(file)
    for _ in capture.packets() if capture.begins == SECTION else ():
        pass
    file.seek(0)
    return any(capture.lost.values())


def options_of(order, octets):
    """The options of a block of pcapng: code and value."""
    at = 0
    while at + 4 <= len(octets):
        code, size = struct.unpack_from(order + "2H", octets, at)
        if code == 0:
            return
        yield code, octets[at + 4 : at + 4 + size]
        at += 4 + (size + 3) // 4 * 4


def resolution(option):
    """The factor and the divisor from an interface's units of time to microseconds."""
    exponent = option[0] & 0x7F
    if option[0] & 0x80:
        return SECOND, 1 << exponent
    return (10 ** (6 - exponent), 1) if exponent <= 6 else (1, 10 ** (exponent - 6))
