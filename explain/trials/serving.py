"""Name servers whose replies follow from the labels of the asked name.

`ttl-5.slow-200.a.example` has a lifetime of 5 seconds, and is answered after 200 milliseconds.
Data has the number of the server and its version, so no two servers and versions have equal data.
"""
import heapq
import itertools
import selectors
import socket
import struct
import threading
import time
import zlib

import dns.flags
import dns.message
import dns.name
import dns.rcode
import dns.rdatatype
import dns.rrset

from world import CLOSED, CORP, ROOT

MOST_ALIASES = 12  # in a reply
SWAPPED = {"example.": "corp.example.", "corp.example.": "example."}
FORGERIES = {"address": (CLOSED, 53), "source": (None, 5353)}


def words_of(name):
    """The labels as a dictionary: `ttl-5` is ttl with 5, `cut` is cut with an empty text."""
    labels = str(name).lower().rstrip(".").split(".")
    return dict(label.split("-", 1) if "-" in label else (label, "") for label in labels)


def alias_of(name):
    """The target of an alias, or None: `hop-2` leads to `hop-1`, `to-a_b` to the rest below a.b."""
    text, words = str(name).lower(), words_of(name)
    if "to" in words:
        rest = text.split(".", 1)[1].rsplit("example.", 1)[0]
        return f"{rest}{words['to'].replace('_', '.')}."
    if words.get("hop", "0") == "0":
        return None
    head, rest = text.split(".", 1)
    number = 3 - int(words["hop"]) if "loop" in words else int(words["hop"]) - 1
    if "cross" in words:
        suffix = "corp.example." if rest.endswith("corp.example.") else "example."
        rest = rest[:-len(suffix)] + SWAPPED[suffix]
    return f"hop-{number}.{rest}"


def data_of(name, kind, server, version):
    """The texts of a record set's data at a server."""
    words, last = words_of(name), int(server.split(".")[-1])
    own = zlib.crc32(name.lower().encode()) % 200
    numbers = range(int(words.get("n", 1)))
    if kind == "A":
        return [f"198.{18 + version}.{last}.{own + number}" for number in numbers]
    if kind == "AAAA":
        return [f"2001:db8:{version}:{last}::{own:x}:{number}" for number in numbers]
    if kind == "TXT":
        text = f"{version}-{last}-".ljust(int(words.get("size", 20)), "x")
        return [" ".join(f'"{text[start:start + 250]}"' for start in range(0, len(text), 250))]
    before = "10 " if kind == "MX" else ""
    return [f"{before}target{number}.v{version}.s{last}.example." for number in numbers]


def reply_to(query, server, version, tcp):
    """The reply of a server; the words are of the last name of the aliases."""
    reply, question = dns.message.make_response(query), query.question[0]
    reply.flags |= dns.flags.AA
    name, kind = str(question.name), dns.rdatatype.to_text(question.rdtype)
    if "cut" in words_of(name) and not tcp:
        reply.flags |= dns.flags.TC
        return reply
    while kind != "CNAME" and (target := alias_of(name)):
        ttl = int(words_of(name).get("aliasttl", 300))
        reply.answer.append(dns.rrset.from_text(name, ttl, "IN", "CNAME", target))
        if "bare" in words_of(name) or len(reply.answer) == MOST_ALIASES:
            return reply
        name = target
    words = words_of(name)
    ttl = int(words.get("ttl", 300))
    if "lame" in words:
        reply.flags &= ~dns.flags.AA
        reply.authority = [dns.rrset.from_text("example.", ttl, "IN", "NS", "ns.elsewhere.test.")]
    elif "rcode" in words:
        reply.set_rcode(int(words["rcode"]))
    elif "nx" in words or "nodata" in words:
        reply.set_rcode(dns.rcode.NXDOMAIN if "nx" in words else dns.rcode.NOERROR)
        if "nosoa" not in words:
            corp = name.lower().endswith("corp.example.")
            zone = "corp.example." if corp else name.split(".")[-2] + "."
            soa = f"ns.{zone} h.{zone} {version} 3600 600 86400 {ttl}"
            reply.authority = [dns.rrset.from_text(zone, ttl, "IN", "SOA", soa)]
    else:
        data = data_of(name, kind, server, version)
        reply.answer.append(dns.rrset.from_text_list(name, ttl, "IN", kind, data))
        if "ns" in words:
            server_name = f"ns{version}.example."
            reply.authority = [dns.rrset.from_text("example.", ttl, "IN", "NS", server_name)]
    return reply


def forged(reply, how):
    """The octets of a forged reply; `how` names the fault in the message, if any."""
    fake = dns.message.from_wire(reply.to_wire())
    fake.answer = [dns.rrset.from_text(reply.question[0].name, 3600, "IN", "A", "203.0.113.99")]
    if how == "id":
        fake.id ^= 0x5555
    if how == "question":
        fake.question = [dns.rrset.from_text("other.example.", 0, "IN", "A")]
    if how == "query":
        fake.flags &= ~dns.flags.QR
    return fake.to_wire(want_shuffle=False)


class NameServers(threading.Thread):
    """Servers at several addresses, by UDP and TCP at port 53, until `ended`.

    `how` says of an address: serves, silent, or refuses (RCODE 5)."""

    def __init__(self):
        super().__init__(daemon=True)
        self.how = dict.fromkeys(ROOT + CORP, "serves")
        self.version, self.ended, self.open, self.extra = 0, False, {}, {}
        self.events, self.later, self.number = selectors.DefaultSelector(), [], itertools.count()
        for address in self.how:
            self.begin(address)
        self.start()

    def begin(self, address, over_tcp=True):
        """Opens the sockets of an address."""
        datagrams = socket.socket(socket.AF_INET, socket.SOCK_DGRAM)
        datagrams.setsockopt(socket.SOL_SOCKET, socket.SO_RCVBUF, 1 << 22)
        datagrams.bind((address, 53))
        self.open[address] = [datagrams]
        self.events.register(datagrams, selectors.EVENT_READ, (self.datagram, address))
        if over_tcp:
            listener = socket.create_server((address, 53), backlog=64)
            self.open[address].append(listener)
            self.events.register(listener, selectors.EVENT_READ, (self.accept, address))

    def close(self, address):
        """Closes the sockets: a query by UDP gets ICMP 'port unreachable', over TCP a reset."""
        for opened in self.open.pop(address):
            self.events.unregister(opened)
            opened.close()

    def run(self):
        while not self.ended:
            for key, _ in self.events.select(0.005):
                key.data[0](key.fileobj, key.data[1])
            while self.later and self.later[0][0] <= time.monotonic():
                heapq.heappop(self.later)[2]()

    def at(self, seconds, action):
        heapq.heappush(self.later, (time.monotonic() + seconds, next(self.number), action))

    def accept(self, listener, address):
        self.events.register(listener.accept()[0], selectors.EVENT_READ, (self.frame, address))

    def frame(self, stream, address):
        try:
            octets = stream.recv(65537)
        except ConnectionError:
            octets = b""
        if len(octets) < 2:
            self.events.unregister(stream)
            stream.close()
            return
        for seconds, reply, _ in self.replies(octets[2:], address, True):
            framed = struct.pack("!H", len(reply)) + reply
            self.at(seconds, lambda framed=framed: stream.fileno() >= 0 and stream.sendall(framed))

    def datagram(self, datagrams, address):
        octets, peer = datagrams.recvfrom(65536)
        for seconds, reply, how in self.replies(octets, address, False):
            sender = FORGERIES.get(how, (address, 53))
            opened = self.sender((sender[0] or address, sender[1]))
            to = (peer[0], peer[1] + (how == "port"))
            self.at(seconds, lambda opened=opened, reply=reply, to=to: (
                opened.fileno() >= 0 and opened.sendto(reply, to)))

    def sender(self, peer):
        """The socket of a server, or of a forger."""
        if peer[1] == 53 and peer[0] in self.open:
            return self.open[peer[0]][0]
        if peer not in self.extra:
            self.extra[peer] = socket.socket(socket.AF_INET, socket.SOCK_DGRAM)
            self.extra[peer].bind(peer)
        return self.extra[peer]

    def replies(self, octets, address, tcp):
        """For each reply: seconds until the sending, octets, and any forgery."""
        query = dns.message.from_wire(octets)
        words, last = words_of(query.question[0].name), address.split(".")[-1]
        if self.how[address] == "silent" or "silent" in words or words.get("only", last) != last:
            return
        reply = reply_to(query, address, self.version, tcp)
        if self.how[address] == "refuses":
            reply = dns.message.make_response(query)
            reply.set_rcode(dns.rcode.REFUSED)
        slow = int(words.get("slow", 2)) / 1000
        for how in words.get("forged", "").split("-") if "forged" in words and not tcp else []:
            yield slow / 2, forged(reply, how), how
        wire = reply.to_wire(max_size=65535)
        yield slow, wire[:-3] if "broken" in words else wire, None
