"""Captures made by hand: packets, octet by octet."""
import inspect
import struct

from repository.packing import name, question

START = 1_795_874_580_000_000  # 2026-11-28 14:03:00 UTC, in microseconds
ETHERNET, COOKED_2 = 1, 276
# An SOA record of the root with a lifetime of 3600 s, a MINIMUM of 600 s, and the root for all names.
DENIAL = "00 0006 0001 00000e10 0016 00 00 00000001 00000002 00000003 00000004 00000258"


def octets(text):
    return bytes.fromhex(text.replace(" ", ""))


def asked(text, *kind):
    """A question, of type A unless another is given."""
    return question(name(text), *kind)


def peer(text):
    where, _, port = text.partition(":")
    return bytes(map(int, where.split("."))), int(port)


def functions_of(module, *parameters):
    """The functions of a module with these parameters, in their order."""
    found = (each for each in vars(module).values() if inspect.isfunction(each) and each.__module__ == module.__name__)
    return [each for each in found if tuple(inspect.signature(each).parameters) == parameters]


class Capturing:
    """A capture that grows: packets by milliseconds after START."""

    def __init__(self, link=ETHERNET):
        self.link, self.packets, self.number = link, [], 0

    def ip(self, milliseconds, source, target, protocol, payload, fragment=0, number=None):
        if number is None:
            self.number += 1
            number = self.number
        header = (
            struct.pack(">BBHHHBBH", 0x45, 0, 20 + len(payload), number & 0xFFFF, fragment, 64, protocol, 0)
            + source
            + target
        )
        if self.link == COOKED_2:
            front = struct.pack(">HHIHBB8s", 0x0800, 0, 2, 1, 0, 6, bytes(8))
        else:
            front = bytes(12) + b"\x08\x00"
        self.packets.append((START + round(milliseconds * 1000), front + header + payload))

    def udp(self, milliseconds, source, target, payload):
        source, target = peer(source), peer(target)
        header = struct.pack(">4H", source[1], target[1], 8 + len(payload), 0)
        self.ip(milliseconds, source[0], target[0], 17, header + payload)

    def tcp(self, milliseconds, source, target, sequence, flags, payload=b""):
        source, target = peer(source), peer(target)
        header = struct.pack(">2H2I2B3H", source[1], target[1], sequence, 0, 0x50, flags, 65535, 0, 0)
        self.ip(milliseconds, source[0], target[0], 6, header + payload)

    def unreachable(self, milliseconds, router, source, target, code=3, payload=b""):
        """ICMP says that a datagram from source did not reach target; `payload` is the datagram's content, if any.
        """
        from_, to, size = peer(source), peer(target), 8 + len(payload) if payload else 40
        inner = (
            struct.pack(">BBHHHBBH", 0x45, 0, 20 + size, 1, 0, 64, 17, 0)
            + from_[0]
            + to[0]
            + struct.pack(">4H", from_[1], to[1], size, 0)
            + payload
        )
        self.ip(
            milliseconds, bytes(map(int, router.split("."))), from_[0], 1, struct.pack(">2BHI", 3, code, 0, 0) + inner
        )

    def pcap(self):
        """The capture as classic pcap."""
        self.packets.sort(key=lambda each: each[0])
        return self.pcap_in_order()

    def pcap_in_order(self):
        """As pcap, in the order of putting."""
        parts = [struct.pack("<I2H4I", 0xA1B2C3D4, 2, 4, 0, 0, 262144, self.link)]
        for moment, packet in self.packets:
            parts.append(struct.pack("<4I", moment // 1_000_000, moment % 1_000_000, len(packet), len(packet)) + packet)
        return b"".join(parts)

    def pcapng(self, resolution=struct.pack(">2HB3x2H", 9, 1, 9, 0, 0), units=1000):
        """The capture as pcapng, with big numbers first and a time in nanoseconds, or as an option
        says: in `units` of a microsecond."""
        parts = [
            block(0x0A0D0D0A, struct.pack(">I2Hq", 0x1A2B3C4D, 1, 0, -1)),
            block(1, struct.pack(">2HI", self.link, 0, 262144) + resolution),
        ]
        for moment, packet in sorted(self.packets, key=lambda each: each[0]):
            time = moment * units
            head = struct.pack(">5I", 0, time >> 32, time & 0xFFFFFFFF, len(packet), len(packet))
            parts.append(block(6, head + packet + bytes(-len(packet) % 4)))
        return b"".join(parts)

    @staticmethod
    def statistics(interface, received, dropped):
        """A block with the numbers of received and of dropped packets."""
        options = struct.pack(">2HQ2HQ2HQ4x", 4, 8, sum(dropped), 5, 8, dropped[0], 7, 8, dropped[1])
        return block(5, struct.pack(">3I", interface, 0, received) + options)


def block(kind, body):
    size = struct.pack(">I", 12 + len(body))
    return struct.pack(">I", kind) + size + body + size
