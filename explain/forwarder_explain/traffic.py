"""The senders of packets: clients with questions, servers with replies, and the forwarder with its messages to both.
Streams of TCP are put together by sequence numbers and cut into messages by their lengths (RFC 1035 4.2.2)."""
import struct

from . import messages
from .clients import Clients
from .events import Bounded
from .messages import HEADER
from .packets import FIN, RST, SYN, Datagram, Segment
from .times import IDLE, STREAM_LATE
from .upstream import MISSING
from .wording import counted, shown

ACK, PORT_CLOSED = 16, 3
ANY_ADDRESS = bytes(4)
BEGUN_BEFORE = "left out: {} to servers that began before the capture, or of which it lost the beginning"
MOST_ELSEWHERE = 50_000  # connections of other programs, and their questions
MOST_WAITING = 64  # segments after a gap


class Side:
    """One direction of a connection: `next` is the expected sequence number, `waiting` has segments after a gap."""

    def __init__(self):
        self.next, self.buffer, self.waiting = None, b"", {}
        self.gaps = self.moment = 0

    def take(self, segment):
        octets, sequence = segment.octets, segment.sequence
        if segment.flags & SYN:
            sequence = self.next = (sequence + 1) & 0xFFFFFFFF
            self.buffer, self.waiting = b"", {}
        elif self.next is None:  # the capture began later than the connection
            if not octets or not begins_message(octets):
                return []
            self.next = sequence
        if octets:
            self.waiting[sequence] = segment.moment, octets
            self.join()
            if len(self.waiting) > MOST_WAITING:
                self.skip_gap()
        return list(self.messages())

    def in_order(self):
        return sorted(self.waiting, key=lambda at: (at - self.next) & 0xFFFFFFFF)

    def join(self):
        moved = True
        while moved and self.waiting:
            moved = False
            for sequence in self.in_order():
                ahead = (sequence - self.next + 0x80000000 & 0xFFFFFFFF) - 0x80000000
                if ahead > 0:
                    continue
                moment, octets = self.waiting.pop(sequence)
                octets = octets[-ahead:] if ahead else octets
                if octets:
                    self.buffer += octets
                    self.moment = max(self.moment, moment)
                    self.next = (self.next + len(octets)) & 0xFFFFFFFF
                    moved = True

    def skip_gap(self):
        """Goes on after a gap, at a segment that begins a message."""
        for sequence in self.in_order():
            moment, octets = self.waiting.pop(sequence)
            if begins_message(octets):
                self.gaps += 1
                self.buffer, self.next = b"", sequence
                self.waiting[sequence] = moment, octets
                self.join()
                return

    def messages(self):
        while len(self.buffer) >= 2:
            size = struct.unpack_from(">H", self.buffer)[0]
            if len(self.buffer) < 2 + size:
                return
            yield self.buffer[2 : 2 + size]
            self.buffer = self.buffer[2 + size :]


class Connection:
    """A connection; the client began it. `query` is that of a connection to a server, None of a client's. `first` is
    the first sequence number, if known; `last` is the moment of the last packet."""

    def __init__(self, client, server, moment):
        self.client, self.server, self.last, self.sides = client, server, moment, {True: Side(), False: Side()}
        self.query = self.first = None
        self.is_refused = self.has_gap = False

    def take(self, segment):
        from_client = segment.source == self.client
        self.last = segment.moment
        self.has_gap |= segment.is_cut
        return from_client, self.sides[from_client].take(segment)

    def finish(self):
        """The messages after gaps: moment, whether the client sent it, octets."""
        found = []
        for from_client, side in self.sides.items():
            self.has_gap |= bool(side.waiting)
            while side.waiting:
                side.skip_gap()
                found += [(side.moment, from_client, message) for message in side.messages()]
        return sorted(found, key=lambda each: each[0])


def begins_message(octets):
    """Whether a message of the DNS with one question seems to begin here."""
    return len(octets) >= 14 and struct.unpack_from(">H", octets)[0] >= 12 and octets[6:8] == b"\0\1"


class Sides:
    """The sides of the traffic in a capture: counts of messages."""

    questions = answers = queries = replies = 0

    def missing(self):
        """The missing part of a capture, in words; None if nothing is missing."""
        if not self.queries and not self.replies:
            return "captured on the clients' side alone" if self.questions else None
        parts = (
            (self.questions, "on the servers' side alone"), (self.answers, "without the answers to clients"),
            (self.queries, "without the queries to servers"), (self.replies, "without the replies of servers"),
        )  # fmt: skip
        return next((f"captured {how}" for count, how in parts if not count), None)


class Traffic:
    """Passes the packets of a capture to the clients' side and to the servers' side. If the service listens at any
    address, `own` has the addresses that clients asked, by client. `elsewhere` has questions of others to others."""

    def __init__(self, configuration, tell, upstream, history):
        self.listen, self.servers = configuration.listen, configuration.servers
        self.clients, self.upstream, self.history = Clients(tell), upstream, history
        self.connections, self.late, self.gaps, self.own, self.sides = {}, set(), 0, Bounded(MOST_ELSEWHERE), Sides()
        self.elsewhere, self.is_any = Bounded(MOST_ELSEWHERE), self.listen[0] == ANY_ADDRESS
        self.unseen = {port for _, port in (configuration.listen, *self.servers)}
        self.ports = frozenset(self.unseen)

    def take(self, packet):
        kind = type(packet)
        if self.unseen and kind in (Datagram, Segment):
            self.unseen -= {packet.source[1], packet.target[1]}
        if kind is Datagram:
            self.datagram(*packet)
        elif kind is Segment:
            self.segment(packet)
        else:
            self.unreachable(packet)

    def is_service(self, peer):
        return peer[1] == self.listen[1] and peer not in self.servers if self.is_any else peer == self.listen

    def datagram(self, moment, source, target, octets, is_cut):
        """Takes a datagram. A server may be a client, too, and ask from the port at which it is asked."""
        path = "udp", target
        if is_cut and path not in self.upstream.paths:
            return
        if self.is_service(target) and not (self.is_any and is_response(octets)):
            if self.is_any:
                self.own[source] = target[0]
            self.sides.questions += 1
            self.clients.question(moment, source, source, octets)
        elif self.is_service(source) and (is_response(octets) or not self.is_any and target not in self.servers):
            self.sides.answers += 1
            is_other = self.is_any and self.own.get(target, source[0]) != source[0]
            self.clients.answer(moment, target, octets, source[0] if is_other else None)
        elif target in self.servers:
            self.sides.queries += 1
            self.upstream.datagram(moment, source, target, octets)
        elif path in self.upstream.paths:
            if query := self.upstream.paths[path]:
                self.sides.replies += 1
                self.upstream.reply(moment, query, source, octets, is_cut)
        elif not is_response(octets):
            self.elsewhere[target, source] = None
        elif (source, target) not in self.elsewhere:  # it is to no query in the capture
            self.sides.replies += source in self.servers
            if source in self.servers and moment < self.history.begins + self.upstream.ask:
                asked = messages.question_of(octets)
                self.history.orphans.add(asked and asked.same)
            else:
                self.upstream.drop(octets, f"it came from {shown(source)} to {shown(target)}, where nothing was asked")

    def unreachable(self, packet):
        """Takes ICMP's news of a query, or of a question if the service's own machine sends it."""
        query = self.upstream.paths.get((packet.transport, packet.source))
        is_own = packet.target == self.listen or self.own.get(packet.source) == packet.target[0]
        if query and query.server == packet.target:
            self.upstream.unreachable(packet, query)
        elif packet.target[1] == self.listen[1] and is_own:
            if packet.sender == packet.target[0] and packet.code == PORT_CLOSED and packet.transport == "udp":
                self.clients.refuse(packet)
        elif packet.target in self.servers:
            self.upstream.unreachable(packet, None)

    # Connections.
    def segment(self, packet):
        connection = self.connection_of(packet)
        if connection is None:
            return
        opened = connection.sides[False].next is not None
        from_client, found = connection.take(packet)
        for octets in found:
            self.message(packet.moment, connection, from_client, octets)
        is_reset = bool(packet.flags & RST)
        if not is_reset and not packet.flags & FIN:
            return
        if connection.server in self.servers:
            if connection.query and not from_client:
                why = "connection reset" if is_reset and opened else "port closed" if is_reset else "connection closed"
                self.upstream.fail(connection.query, why, packet.moment)
            return
        if is_reset and not connection.is_refused:
            connection.is_refused = not opened
            self.clients.reset(connection, packet.moment, from_client, opened)
        if is_reset or from_client:
            self.clients.connections.discard(connection)
        if is_reset or not from_client:
            self.clients.gone(connection, packet.moment)

    def connection_of(self, packet):
        """The connection of a segment that is a client's or a query's, perhaps a new one."""
        begins = packet.flags & SYN and not packet.flags & ACK
        ends = packet.source, packet.target
        known = self.connections.get(ends) or self.connections.get(ends[::-1])
        if known and not (begins and known.first != packet.sequence):
            return known
        found = None if packet.flags & RST else self.ends_of(packet)
        if found is None:
            return None
        if known:
            self.finish(known)
        client, server = found
        connection = Connection(client, server, packet.moment)
        connection.first = packet.sequence if begins else None
        if server not in self.servers:
            self.clients.connections.add(connection)
        elif packet.flags & SYN or packet.target == server and begins_message(packet.octets):
            self.sides.queries += 1
            self.upstream.connect(connection, packet.moment)
        else:
            self.late |= {found} if len(self.late) < MOST_ELSEWHERE else set()
            return None
        self.connections[found] = connection
        return connection

    def ends_of(self, packet):
        """Client and server of a segment's connection; None if it is another program's."""
        for is_server in (self.is_service, self.servers.__contains__):
            if is_server(packet.target):
                return packet.source, packet.target
            if is_server(packet.source):
                return packet.target, packet.source
        return None

    def message(self, moment, connection, from_client, octets):
        if connection.server not in self.servers:
            if from_client:
                self.sides.questions += 1
                self.clients.question(moment, connection, connection.client, octets)
            else:
                self.sides.answers += 1
                self.clients.answer(moment, connection, octets, None)
        elif from_client:
            self.upstream.carried(connection, octets)
        elif connection.query and connection.query.identifier is not None:
            self.sides.replies += 1
            self.upstream.reply(moment, connection.query, connection.server, octets, False)

    def finish(self, connection):
        for moment, from_client, octets in connection.finish():
            self.message(moment, connection, from_client, octets)
        gaps = sum(side.gaps for side in connection.sides.values())
        self.gaps += gaps
        if connection.query and (connection.has_gap or gaps):
            self.upstream.end(connection.query, MISSING, connection.last)
        self.clients.connections.discard(connection)

    def forget(self, now):
        """Drops connections that are over, and reads on after gaps in streams."""
        for ends, connection in list(self.connections.items()):
            waiting = [each[0] for side in connection.sides.values() for each in side.waiting.values()]
            is_over = connection.last < now - IDLE
            if is_over or waiting and min(waiting) < now - STREAM_LATE:
                self.finish(connection)
                if is_over:
                    del self.connections[ends]
                else:
                    for side in connection.sides.values():
                        side.gaps = 0

    def notes(self):
        for count, noun, text in (
            (self.upstream.foreign, "query", "left out: {} to servers, not of the forwarder's form: another program's"),
            (self.clients.left_out, "answer", "left out: {} without a question in the capture"),
            (self.gaps, "gap", "{} in streams over TCP: messages are missing"),
            (len(self.late), "connection", BEGUN_BEFORE),
        ):
            if count:
                yield text.format(counted(count, noun))
        if self.unseen != self.ports:
            for port in sorted(self.unseen):
                yield f"no packet of port {port}, which the configuration names"
        if self.sides.questions and not self.sides.queries:
            yield f"has no query to a server of the configuration ({', '.join(sorted(map(shown, self.servers)))})"
        if missing := self.sides.missing():
            yield missing


def is_response(octets):
    return len(octets) >= HEADER and octets[2] >= 128
