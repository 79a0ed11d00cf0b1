"""Packets of a capture: read, written, and changed with right lengths and checksums."""
import dataclasses
import socket
import struct

import dpkt

HEADS = {1: 14, 113: 16, 276: 20}  # octets before IP: Ethernet, both forms of "any"
LINUX_2 = 276


@dataclasses.dataclass
class Packet:
    """A packet at its microsecond, with the octets that are before IP."""

    time: int
    head: bytes
    ip: dpkt.ip.IP = None
    limit: int = 65535

    @property
    def octets(self):
        return self.head + (bytes(self.ip) if self.ip else b"")

    @property
    def has_ports(self):
        return self.ip is not None and hasattr(self.ip.data, "dport")

    @property
    def is_datagram(self):
        return self.has_ports and isinstance(self.ip.data, dpkt.udp.UDP)

    @property
    def ends(self):
        """The sender's and the receiver's address and port."""
        return (f"{socket.inet_ntoa(self.ip.src)}:{self.ip.data.sport}",
                f"{socket.inet_ntoa(self.ip.dst)}:{self.ip.data.dport}")

    def answers(self, query):
        """Whether it goes the query's way back, with its identifier."""
        return (self.is_datagram and self.ends == query.ends[::-1]
                and self.message[:2] == query.message[:2])

    @property
    def message(self):
        return bytes(self.ip.data.data)

    def sealed(self):
        """Puts right the lengths and checksums after a change."""
        inner = self.ip.data
        if isinstance(inner, dpkt.udp.UDP):
            inner.ulen = 8 + len(inner.data)
        inner.sum = self.ip.sum = 0
        self.ip.len = self.ip.__hdr_len__ + len(self.ip.opts) + len(inner)
        self.ip = dpkt.ip.IP(bytes(self.ip))
        return self

    def copy(self, **changes):
        """The packet again, with other times, addresses (`src`, `dst`), ports or message."""
        again = Packet(changes.get("time", self.time), self.head, dpkt.ip.IP(bytes(self.ip)))
        for key in ("src", "dst"):
            setattr(again.ip, key, changes.get(key, getattr(again.ip, key)))
        for key in ("sport", "dport"):
            setattr(again.ip.data, key, changes.get(key, getattr(again.ip.data, key)))
        again.ip.data.data = changes.get("message", again.ip.data.data)
        return again.sealed()


def parted(link, micro, octets):
    size = HEADS[link]
    kind = octets[:2] if link == LINUX_2 else octets[size - 2:size]
    if kind == b"\x81\x00":
        size, kind = size + 4, octets[size + 2:size + 4]
    if kind != b"\x08\x00":
        return Packet(micro, octets)
    try:
        ip = dpkt.ip.IP(octets[size:])
    except dpkt.UnpackError:
        return Packet(micro, octets)
    again = octets[:size] + bytes(ip)
    return Packet(micro, octets[:size], ip) if again == octets else Packet(micro, octets)


def read(path):
    """The link type and the packets of a pcap file."""
    with open(path, "rb") as file:
        reader = dpkt.pcap.Reader(file)
        link = reader.datalink()
        return link, [parted(link, round(at * 1000000), octets) for at, octets in reader]


def write(path, link, packets):
    with open(path, "wb") as file:
        file.write(struct.pack("<IHHiIII", 0xA1B2C3D4, 2, 4, 0, 0, 262144, link))
        for packet in packets:
            octets, held = packet.octets, packet.octets[:packet.limit]
            times = divmod(packet.time, 1000000)
            file.write(struct.pack("<IIII", *times, len(held), len(octets)) + held)
