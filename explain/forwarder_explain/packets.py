"""The content of packets: datagrams of UDP, segments of TCP, and news by ICMP of datagrams that reached nobody."""
import struct
from typing import NamedTuple

from dpkt import pcap
from dpkt.ethernet import Ethernet
from dpkt.icmp import ICMP, ICMP_UNREACH
from dpkt.ip import IP, IP_PROTO_TCP, IP_PROTO_UDP
from dpkt.loopback import Loopback
from dpkt.sll import SLL
from dpkt.sll2 import SLL2
from dpkt.tcp import TCP
from dpkt.tcp import TH_FIN as FIN
from dpkt.tcp import TH_RST as RST
from dpkt.tcp import TH_SYN as SYN
from dpkt.udp import UDP

from .capture import Unreadable
from .times import SAME_FRAME, SAME_PACKET
from .wording import counted

# Loopback and raw IP have other numbers on other systems; dpkt has those of its own system.
LINKS = {
    pcap.DLT_EN10MB: Ethernet,
    **dict.fromkeys((pcap.DLT_NULL, 108), Loopback),
    **dict.fromkeys((12, 14, 101, pcap.DLT_IPV4), IP),
    pcap.DLT_LINUX_SLL: SLL,
    pcap.DLT_LINUX_SLL2: SLL2,
}
MOST_SEEN = 8192  # packets of the last time
MOST_IN_PIECES = 1000  # datagrams in fragments, of which some are missing
VLAN = b"\x81\0"
TRANSPORTS = {IP_PROTO_TCP: "tcp", IP_PROTO_UDP: "udp"}
ANY_INTERFACE = (pcap.DLT_LINUX_SLL, pcap.DLT_LINUX_SLL2)
# The places of the protocol, if any, and of IP, by link type.
PLAIN_LINKS = {
    pcap.DLT_EN10MB: (12, 14),
    pcap.DLT_LINUX_SLL: (14, 16),
    pcap.DLT_LINUX_SLL2: (0, 20),
    **dict.fromkeys((12, 14, 101, pcap.DLT_IPV4), (None, 0)),
}
IP_HEAD, UDP_HEAD = struct.Struct(">2B3H2B").unpack_from, struct.Struct(">3H").unpack_from


class Datagram(NamedTuple):
    """UDP, between peers: address in four octets, and port. Of one that `is_cut` the end is missing."""

    moment: int
    source: tuple
    target: tuple
    octets: bytes
    is_cut: bool = False


class Segment(NamedTuple):
    """TCP. Of one that `is_cut` the end is missing."""

    moment: int
    source: tuple
    target: tuple
    sequence: int
    flags: int
    octets: bytes
    is_cut: bool = False


class Unreachable(NamedTuple):
    """ICMP: a datagram or segment from `source` did not reach `target`; `code` is that of RFC 792. `sender` says so;
    `octets` are the beginning of the datagram's content."""

    moment: int
    source: tuple
    target: tuple
    transport: str
    code: int
    sender: bytes
    octets: bytes


class Decoder:
    """Reads packets, and counts those of no use."""

    def __init__(self):
        self.cut = self.fragments = self.incomplete = 0
        self.links, self.seen, self.pieces = {}, {}, {}

    def read(self, moment, link, octets, is_cut):
        self.links[link] = self.links.get(link, 0) + 1
        whole = plain_datagram(link, octets)
        if whole is None:
            self.cut += is_cut
            return self.read_by_dpkt(moment, link, octets, is_cut)
        if self.is_double(moment, link, whole):
            return None
        at = 4 * (whole[0] & 15)
        from_port, to_port, size = UDP_HEAD(whole, at)
        return Datagram(moment, (whole[12:16], from_port), (whole[16:20], to_port), whole[at + 8 : at + max(8, size)])

    def read_by_dpkt(self, moment, link, octets, is_cut):
        """Any packet that dpkt knows."""
        try:
            frame = LINKS[link](octets)
            ip = frame if isinstance(frame, IP) else frame.data
            if not isinstance(ip, IP) or ip.v != 4:
                return None
            octets = octets[len(frame) - len(ip) :][: ip.len or None]  # a length of 0 is left to the network card
        except Exception:  # dpkt reads all protocols that it knows, and raises more than its own errors
            return None
        if self.is_double(moment, link, octets):
            return None
        if len(octets) < ip.len and not is_cut:
            self.cut += 1
            is_cut = True
        if ip.mf or ip.offset:
            payload = None if is_cut else self.whole(ip, octets[4 * ip.hl :])
            if payload is None:
                return None
            ip = IP(IP(p=ip.p, src=ip.src, dst=ip.dst, len=0).pack_hdr() + payload)
        return content(moment, ip, is_cut)

    def is_double(self, moment, link, octets):
        """Whether the packet was just seen on another interface (`tcpdump -i any`), or on a bridge."""
        key = hash((octets[:8], octets[9:10], octets[12:]))  # without the fields that routers change
        last, self.seen[key] = self.seen.get(key, 0), moment
        if len(self.seen) > MOST_SEEN:
            self.seen = {key: when for key, when in self.seen.items() if moment - when <= SAME_PACKET}
        return moment - last <= (SAME_PACKET if link in ANY_INTERFACE else SAME_FRAME)

    def whole(self, ip, payload):
        """The payload once all fragments are there (RFC 791 3.2), else None."""
        key = ip.src, ip.dst, ip.id, ip.p
        pieces = self.pieces.setdefault(key, {})
        if len(self.pieces) > MOST_IN_PIECES:
            del self.pieces[next(iter(self.pieces))]
            self.incomplete += 1
        pieces[8 * ip.offset] = (payload, bool(ip.mf))
        octets, more = b"", True
        while more:
            piece, more = pieces.get(len(octets), (b"", True))
            if more and not piece:
                return None
            octets += piece
        self.pieces.pop(key, None)
        self.fragments += 1
        return octets

    def notes(self):
        """A line for each kind of packets of no use; raises if no packet was of use."""
        unknown = {link: count for link, count in self.links.items() if link not in LINKS}
        if unknown and len(unknown) == len(self.links):
            raise Unreadable(
                f"has packets of link type {', '.join(map(str, unknown))} alone, which is not known here; "
                "known are Ethernet, loopback, raw IP and the two forms of Linux's any"
            )
        for link, count in unknown.items():
            yield f"left out: {counted(count, 'packet')} of link type {link}, which is not known here"
        if self.cut:
            yield f"{counted(self.cut, 'packet')} cut short by the capture (tcpdump -s)"
        if self.fragments:
            yield f"{counted(self.fragments, 'datagram')} put together from fragments"
        if incomplete := self.incomplete + len(self.pieces):
            yield f"left out: {counted(incomplete, 'datagram')} in fragments of which some are missing"


def plain_datagram(link, octets):
    """The IP packet of a whole UDP datagram that is no fragment, ten times as fast as by dpkt; else None."""
    if link not in PLAIN_LINKS:
        return None
    kind, at = PLAIN_LINKS[link]
    if kind == 12 and octets[12:14] == VLAN:
        kind, at = 16, 18
    if len(octets) < at + 28 or kind is not None and octets[kind : kind + 2] != b"\x08\0":
        return None
    head, _, size, _, fragment, _, protocol = IP_HEAD(octets, at)
    start = at + 4 * (head & 15)
    if protocol != IP_PROTO_UDP or head >> 4 != 4 or start < at + 20 or fragment & 0x3FFF:
        return None
    return octets[at : at + size] if start + 8 <= at + size <= len(octets) else None


def content(moment, ip, is_cut):
    data = ip.data
    if isinstance(data, UDP):
        octets = bytes(data.data)[: max(0, data.ulen - 8)]
        return Datagram(moment, (ip.src, data.sport), (ip.dst, data.dport), octets, is_cut)
    if isinstance(data, TCP):
        return Segment(moment, (ip.src, data.sport), (ip.dst, data.dport), data.seq, data.flags, data.data, is_cut)
    if isinstance(data, ICMP) and data.type == ICMP_UNREACH and isinstance(data.data, ICMP.Unreach):
        return unreachable(moment, data.code, ip.src, data.data.ip)
    return None


def unreachable(moment, code, sender, ip):
    octets = bytes(ip.data)
    if ip.v != 4 or ip.p not in TRANSPORTS or len(octets) < 4:
        return None
    from_port, to_port = struct.unpack_from(">2H", octets)
    beginning = octets[8:] if ip.p == IP_PROTO_UDP else b""
    return Unreachable(moment, (ip.src, from_port), (ip.dst, to_port), TRANSPORTS[ip.p], code, sender, beginning)
