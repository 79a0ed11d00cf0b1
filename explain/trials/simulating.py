"""Captures of a simulated service: the step of tools/reading, with clients and name servers in
simulated time."""
import heapq
import itertools
import pathlib
import random
import socket
import struct
import sys

import dns.message
import dns.rcode
import dpkt

import packets
import world
from serving import FORGERIES, forged, reply_to, words_of

sys.path.append(str(pathlib.Path(__file__).resolve().parents[2] / "tools"))
from reading.configuration import read_configuration  # noqa: E402 (the path is known only now)
from reading.step import Forwarder  # noqa: E402

BEGIN = 1796000000 * 1000000  # times are microseconds since then
SERVICE = (world.MACHINE, 53)
FRAME = b"\2\0\0\0\0\1\2\0\0\0\0\2\x08\0"
FIN, SYN, RST, ACK = 1, 2, 4, 16
LABELS = ["nx", "nodata", "cut", "cross", "bare", "ns", "lame", "silent", "broken", "nosoa", "loop",
          "ttl-0", "ttl-1", "ttl-2", "ttl-4", "n-2", "n-11", "n-30", "slow-20", "slow-140",
          "rcode-2", "rcode-5", "aliasttl-0", "aliasttl-2", "forged-id-port-source",
          "forged-address-query", "forged-question", *[f"hop-{number}" for number in range(1, 10)]]
SUFFIXES = ["example", "example", "corp.example", "lan", "printers.lan"]
KINDS = ["A"] * 12 + ["AAAA", "MX", "TXT", "CNAME", "NS"]
VERBS = ["ask"] * 3 + ["burst"] * 3 + ["wait"] * 2 + ["version", "serves", "how", "restart", "stop"]


class Connection:
    """A connection of TCP as its segments show it: way 0 is the client's."""

    def __init__(self, network, client, server):
        self.network, self.ends, self.open = network, (client, server), True
        self.number = next(network.numbers)
        self.next = [network.chance.getrandbits(32) for _ in range(2)]

    def send(self, way, flags, octets=b""):
        source, target = self.ends[::-1] if way else self.ends
        segment = dpkt.tcp.TCP(sport=source[1], dport=target[1], seq=self.next[way], flags=flags,
                               data=octets)
        self.network.capture(source, target, segment, 6)
        self.next[way] = self.next[way] + len(octets) + bool(flags & (SYN | FIN)) & 0xFFFFFFFF

    def end(self, way, flags):
        if self.open:
            self.open = False
            self.send(way, flags | ACK)


class Service:
    """The service: takes events in order, and is busy until `free`."""

    def __init__(self, network, text):
        self.network, self.configuration = network, read_configuration(text.encode())
        self.begin()

    def begin(self):
        self.step, self.inbox, self.free = Forwarder(self.configuration), [], 0
        self.paths, self.clients, self.alive = {}, {}, True

    def arrive(self, *event):
        if self.alive:
            self.inbox.append(event)
            self.network.later(self.free - self.network.now, self.work)

    def work(self):
        network = self.network
        if not self.alive or network.now < self.free:
            return
        self.free = network.now + network.chance.randrange(20, 150)
        if self.inbox:
            self.do(*self.inbox.pop(0))
        while self.do("tick"):
            pass
        limits = self.step.limits
        due = [each.taken + limits["deadline_ms"] for each in self.step.waiting]
        due += [each.asked + limits["ask_ms"] for each in self.step.asks]
        if self.inbox:
            network.later(self.free - network.now, self.work)
        if due:
            network.later(max(1000, 1000 * min(due) - network.now), self.work)

    def do(self, *event):
        words = [self.network.chance.getrandbits(32) for _ in range(8)]
        actions = self.step.step(self.network.now // 1000, words, *event)
        for kind, *rest in actions:
            self.network.now += 1
            getattr(self, f"do_{kind.replace('-', '_')}")(*rest)
        return actions

    def do_reply(self, transport, client, _, octets):
        connection = None if transport == "udp" else self.clients[client]
        if connection is None:
            self.network.datagram(SERVICE, peer(client), octets)
        elif connection.open:
            connection.send(1, ACK, framed(octets))
        self.network.answered(connection.ends[0] if connection else peer(client), octets)

    def do_ask_udp(self, number, server, octets):
        self.paths["udp", number] = None
        self.network.query(("udp", number), (SERVICE[0], number), peer(server), octets)

    def do_ask_tcp(self, number, server, octets):
        connection = Connection(self.network, self.network.new_port(SERVICE[0]), peer(server))
        self.paths["tcp", number] = connection
        self.network.connect(("tcp", number), connection, octets)

    def do_close_udp(self, number):
        self.paths.pop(("udp", number), None)

    def do_close_tcp(self, number):
        self.paths.pop(("tcp", number)).end(0, FIN)


class Network:
    """The network and its time, with all packets in `captured` and the questions in `rows`."""

    def __init__(self, seed, text):
        self.chance, self.now, self.coming = random.Random(seed), BEGIN, []
        self.numbers, self.ports = itertools.count(1), itertools.count(20000)
        self.captured, self.rows, self.open, self.stream = [], [], {}, None
        self.how, self.version, self.restarts, self.options = {}, 0, [], []
        self.service, self.text = Service(self, text), text

    def later(self, micros, action, *words):
        heapq.heappush(self.coming, (self.now + max(0, micros), next(self.numbers), action, words))

    def run(self):
        while self.coming:
            at, _, action, words = heapq.heappop(self.coming)
            self.now = max(self.now, at)
            action(*words)
        return sorted(self.captured, key=lambda packet: packet.time)

    def new_port(self, address):
        return address, next(self.ports)

    def capture(self, source, target, data, protocol):
        packet = dpkt.ip.IP(src=socket.inet_aton(source[0]), dst=socket.inet_aton(target[0]),
                            p=protocol, data=data, len=20 + len(data))
        self.captured.append(packets.Packet(self.now, FRAME, dpkt.ip.IP(bytes(packet))))
        return packet

    def datagram(self, source, target, octets):
        return self.capture(source, target, dpkt.udp.UDP(
            sport=source[1], dport=target[1], data=octets, ulen=8 + len(octets)), 17)

    def refuse(self, packet, target):
        """ICMP 'port unreachable' to the sender of a packet."""
        news = dpkt.icmp.ICMP.Unreach(data=bytes(packet)[:68])
        self.capture((target, 0), (socket.inet_ntoa(packet.src), 0),
                     dpkt.icmp.ICMP(type=3, code=3, data=news), 1)

    # Clients.

    def ask(self, name, kind, tcp):
        number = next(self.numbers) * 7919 % 65535 + 1
        query = dns.message.make_query(name, kind, use_edns=False)
        query.id = number
        client = self.new_port(self.chance.choice(world.CLIENTS))
        if tcp:
            if not self.stream or not self.stream.open or self.chance.random() < 0.3:
                self.stream = Connection(self, client, SERVICE)
                self.stream.send(0, SYN)
                self.stream.send(1, SYN | ACK if self.service.alive else RST | ACK)
                self.stream.open = self.service.alive
                self.service.clients[self.stream.number] = self.stream
            if not self.stream.open:
                return
            client = self.stream.ends[0]
        row = ["%s:%d" % client, "tcp" if tcp else "udp", number, name, kind, None]
        self.rows.append(row)
        self.open[client, number] = row
        if tcp:
            self.stream.send(0, ACK, framed(query.to_wire()))
            self.service.arrive("client", ("tcp", self.stream.number), query.to_wire())
            return
        packet = self.datagram(client, SERVICE, query.to_wire())
        if not self.service.alive:
            self.refuse(packet, SERVICE[0])
        self.service.arrive("client", ("udp", row[0]), query.to_wire())

    def answered(self, client, octets):
        row = self.open.pop((client, int.from_bytes(octets[:2], "big")), None)
        if row:
            row[5] = dns.rcode.to_text(octets[3] & 15)

    # Servers.

    def replies(self, octets, address, tcp):
        """For each reply: microseconds until the sending, octets, and any forgery."""
        query, how = dns.message.from_wire(octets), self.how.get(address, "serves")
        words = words_of(query.question[0].name)
        if how == "silent" or "silent" in words or how == "lossy" and self.chance.random() < 0.5:
            return
        reply = reply_to(query, address, self.version, tcp)
        if how == "refuses":
            reply = dns.message.make_response(query)
            reply.set_rcode(dns.rcode.REFUSED)
        micros = int(words.get("slow", 0)) * 1000 + round(self.chance.lognormvariate(8, 1))
        for forgery in words["forged"].split("-") if "forged" in words and not tcp else []:
            yield micros // 2, forged(reply, forgery), forgery
        wire = reply.to_wire(max_size=65535)
        yield micros, wire[:-3] if "broken" in words else wire, None

    def query(self, path, own, server, octets):
        packet = self.datagram(own, server, octets)
        if self.how.get(server[0]) == "closed":
            self.later(300, self.refuse, packet, server[0])
            self.later(301, self.service.arrive, "failed", path)
            return
        for micros, reply, how in self.replies(octets, server[0], False):
            address, port = FORGERIES.get(how, server)
            to = (own[0], own[1] + (how == "port"))
            self.later(micros, self.reply, path, (address or server[0], port), to, reply)

    def reply(self, path, source, target, octets):
        self.datagram(source, target, octets)
        if path in self.service.paths and target[1] == path[1]:
            self.service.arrive("reply", path, "%s:%d" % source, octets)

    def connect(self, path, connection, octets):
        connection.send(0, SYN)
        if self.how.get(connection.ends[1][0]) == "closed":
            self.later(300, connection.end, 1, RST)
            self.later(301, self.service.arrive, "failed", path)
            return
        connection.send(1, SYN | ACK)
        connection.send(0, ACK, framed(octets))
        for micros, reply, _ in self.replies(octets, connection.ends[1][0], True):
            self.later(micros, self.flow, path, connection, reply)

    def flow(self, path, connection, octets):
        if connection.open:
            for first in range(0, 2 + len(octets), 1400):
                connection.send(1, ACK, framed(octets)[first:first + 1400])
            self.service.arrive("reply", path, "%s:%d" % connection.ends[1], octets)

    # The service's fate.

    def stop(self, micros):
        self.service.free = self.now + micros

    def restart(self, gap):
        """Ends the service and begins it again; without a gap no packet may show the restart, so
        the options name it."""
        service = self.service
        if not service.alive:
            return
        for way, found in ((1, service.clients), (0, service.paths)):
            for connection in filter(None, found.values()):
                connection.end(way, RST)
        service.alive = False
        self.restarts.append(self.now / 1e6)
        if gap:
            self.later(gap, service.begin)
        else:
            self.options += ["--restarted", f"{self.now / 1e6:.3f}"]
            service.begin()


def peer(text):
    address, port = text.split(":")
    return address, int(port)


def framed(octets):
    return struct.pack("!H", len(octets)) + octets


def scene(name, steps=50):
    """A scene by chance: the network after its run, with its packets; `sim_7` never changes."""
    chance = random.Random(name)
    names = [".".join([*chance.sample(LABELS, chance.choice([0, 1, 1, 2, 3])), f"host{number}",
                       chance.choice(SUFFIXES)]) for number in range(25)]
    network = Network(name, world.configuration(
        version=2, routes=world.DENYING, ask_ms=200, tries=chance.choice([1, 2, 3]),
        cache=chance.choice([6, 4096, 4096]), stale_s=chance.choice([0, 2, 600]),
        deadline_ms=chance.choice([500, 8000])))
    at = 0
    for _ in range(steps):
        verb, address = chance.choice(VERBS), chance.choice(world.ROOT + world.CORP)
        if verb in ("ask", "burst"):
            for asked in chance.choices(names, k=chance.choice([1, 2, 5, 9])):
                network.later(at, network.ask, asked, chance.choice(KINDS), chance.random() < 0.2)
                at += chance.randrange(400000 if verb == "ask" else 3000)
        elif verb == "wait":
            at += chance.choice([100000, 500000, 1000000, 3000000])
        elif verb == "version":
            network.later(at, setattr, network, "version", len(network.coming))
        elif verb in ("serves", "how"):
            how = chance.choice(["silent", "refuses", "closed", "lossy"]) if verb == "how" else verb
            network.later(at, network.how.__setitem__, address, how)
        elif verb == "stop":
            network.later(at, network.stop, chance.randrange(1000, 900000))
        elif chance.random() < 0.4:
            network.later(at, network.restart, chance.choice([0, 50000, 200000, 1000000]))
    return network, network.run()


def truth(network):
    return {"whole": True, "steps": [], "options": network.options, "restarts": network.restarts,
            "questions": network.rows}
