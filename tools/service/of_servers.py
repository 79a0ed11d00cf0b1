"""Queries to name servers, the outcomes of their replies, and a sufficient size of the stack."""
import resource
import socket
import struct
import time

from repository.packing import address, code, framed, name_end, reply
from running.processes import descriptors
from running.trying import until

from .cases import (
    Forwarder, Server, case, descriptors_at_most, free_port, in_a_network_of_its_own, reset, within)
from .messages import (
    SERVFAIL, UNKNOWN, chain, cut_reply_to, expect, head, is_answer, is_long_answer, long_reply_to,
    never, number_of, question, reply_to)


@case
def a_cut_reply_is_asked_for_over_tcp(program):
    """The server sees the end of the connection within a second after its reply."""
    ends = []

    def sees_the_end(stream, query):
        stream.settimeout(1)
        stream.sendall(framed(reply_to(query)))
        ends.append(stream.recv(1))

    with Forwarder(program, [Server(cut_reply_to, sees_the_end)]) as forwarder:
        forwarder.is_well()
        until(lambda: len(ends) == 2, 1.5, "a connection stays open")
        expect(ends, [b"", b""])


@case
def servers_over_tcp(program):
    def in_two_pieces(stream, query):
        octets = framed(reply_to(query))
        stream.sendall(octets[:1])
        time.sleep(0.05)
        stream.sendall(octets[1:30])
        time.sleep(0.05)
        stream.sendall(octets[30:])

    def another_first(stream, query):
        other = reply_to(question("other.example", identifier=8))
        stream.sendall(framed(other) + framed(reply_to(query)))

    def twice(stream, query):
        stream.sendall(framed(reply_to(query)) * 2)

    def unless_the_client_has_ended(stream, query):
        stream.settimeout(0.1)
        try:
            expect(stream.recv(1), None)
        except TimeoutError:
            stream.sendall(framed(reply_to(query)))

    for over_tcp in (in_two_pieces, another_first, twice, unless_the_client_has_ended):
        with Forwarder(program, [Server(cut_reply_to, over_tcp)]) as forwarder:
            forwarder.is_well()


@case
def servers_that_close_or_reset(program):
    def closes(stream, query):
        stream.sendall(framed(reply_to(query))[:20])
        stream.close()

    def resets(stream, query):
        reset(stream)

    for over_tcp in (closes, resets):
        with Forwarder(program, [Server(cut_reply_to, over_tcp), Server()]) as forwarder:
            with within(1, "it waited for the time of an ask"):
                forwarder.is_well()


@case
def a_server_that_is_not_there(program):
    gone = free_port()
    with Forwarder(program, [gone]) as forwarder:
        with within(1, "the refusal was not reported"):
            forwarder.fails()
    with Forwarder(program, [gone, Server()]) as forwarder:
        forwarder.is_well()


@case
def a_server_that_never_answers(program):
    with Forwarder(program, [Server(never), Server()], ask_ms=300) as forwarder:
        forwarder.is_well()


@case
def strangers_that_reply_first(program):
    """Two strangers reply to the port of the query: from the server's port at a wrong address, and
    from a wrong port at the server's address. Only the server's reply, the last, counts."""
    strangers = [socket.socket(type=socket.SOCK_DGRAM) for _ in range(2)]

    def by_udp(query):
        for stranger in strangers:
            forged = reply_to(query, address=b"\xc0\0\2\1")
            stranger.sendto(forged, ("127.0.0.1", server.asked_from[-1]))
        time.sleep(0.05)
        return reply_to(query)

    server = Server(by_udp)
    strangers[0].bind(("127.0.0.6", server.port))
    strangers[1].bind(("127.0.0.1", free_port()))
    with Forwarder(program, [server]) as forwarder:
        forwarder.is_well()
    expect(len(server.asked), 2)


@case
def many_asks_at_once(program):
    server = Server(lambda query: time.sleep(0.0005) or reply_to(query))
    with (Forwarder(program, [server], ask_ms=5000, deadline_ms=20000) as forwarder,
          forwarder.udp() as client):
        asked = {n: question(f"n{n}.example", identifier=n) for n in range(200)}
        for message in asked.values():
            client.send(message)
        while asked:
            reply = client.recv(65535)
            is_answer(reply, asked.pop(number_of(reply)))


@case
def long_replies_by_udp(program):
    """A reply of up to 65,507 octets comes whole over TCP, by UDP a cut reply."""
    for octets in (6000, 60000):
        server = Server(lambda query: long_reply_to(query, octets))
        with Forwarder(program, [server]) as forwarder:
            asked = question(kind=UNKNOWN)
            is_long_answer(forwarder.ask_tcp(asked), asked, octets)
            expect(forwarder.ask_udp(asked), head(asked, 0x8380, 0) + asked[12:])


@case
def runs_draw_other_identifiers_and_ports(program):
    """Three runs with 200 queries each have no pair of identifier and port in common (RFC 5452
    9.2): the draws of a run tell a stranger nothing of the next. Runs with equal random words would
    draw equal pairs."""
    runs = []
    for _ in range(3):
        server = Server(never)
        with Forwarder(program, [server]) as forwarder, forwarder.udp() as client:
            for n in range(200):
                client.send(question(f"n{n}.example"))
            until(lambda: len(server.asked_from) == 200, 5, "not all was asked")
        runs.append({(query[:2], port) for query, port in zip(server.asked, server.asked_from)})
    drawn, sizes = len(set.union(*runs)), [len(run) for run in runs]
    if min(sizes) < 200 or drawn < sum(sizes):
        raise AssertionError(f"{' and '.join(map(str, sizes))} pairs are {drawn} in all")


def are_drawn_everywhere(drawn, first, end):
    """Each quarter has 80 of 600 random values at least: 150 are expected, +-11."""
    size = (end - first) // 4
    quarters = [(value - first) // size for value in drawn]
    counts = [quarters.count(quarter) for quarter in range(4)]
    if sum(counts) != len(drawn) or min(counts) < 80:
        raise AssertionError(f"{len(drawn)} from {first} to {end - 1}: quarters have {counts}")


@case
def ports_and_identifiers_are_drawn_from_all_that_there_are(program):
    """600 queries: ports of 1,024 to 65,535, identifiers of 16 bits (RFC 5452 9.2)."""
    server = Server()
    with Forwarder(program, [server]) as forwarder:
        for n in range(600):
            forwarder.answers(f"n{n}.example")
    identifiers = [number_of(query) for query in server.asked]
    expect(len(identifiers), 600)
    are_drawn_everywhere(server.asked_from, 1024, 65536)
    are_drawn_everywhere(identifiers, 0, 65536)
    for what, values in (("identifiers", identifiers), ("ports", server.asked_from)):
        for bit in range(16):
            ones = sum(value >> bit & 1 for value in values)
            if not 200 < ones < 400:
                raise AssertionError(f"bit {bit} is set in {ones} of 600 {what}")


@case
def a_query_that_the_system_refuses_to_send(program):
    """The try fails (EPERM), and the next server is asked at once, not after the five seconds that
    a query may take. After 200 such queries no descriptor more is open."""
    refused, limits = free_port(), {"ask_ms": 5000, "deadline_ms": 9000}

    def body():
        first, second = Server(port=refused), Server()
        bounds = descriptors_at_most(64)
        with Forwarder(program, [first], bounds=bounds, tries=1, **limits) as forwarder:
            before = descriptors(forwarder.pid)
            for n in range(200):
                forwarder.fails(f"n{n}.example")
            expect(descriptors(forwarder.pid), before)
        with Forwarder(program, [first, second], **limits) as forwarder, within(1):
            forwarder.answers()
        expect(first.asked, [])

    rules = "add table ip own; add chain ip own sent { type filter hook output priority 0; }"
    in_a_network_of_its_own(body, f"{rules}; add rule ip own sent udp dport {refused} drop")


@case
def a_client_over_tcp_waits_to_the_deadline(program):
    """The question is asked sixteen times at most, a second each; the client gets a reply at the
    deadline, and not before."""
    server, limits = Server(never), {"ask_ms": 1000, "tries": 16, "deadline_ms": 13000}
    with Forwarder(program, [server], **limits) as forwarder:
        began = time.monotonic()
        expect(code(forwarder.ask_tcp(question())), SERVFAIL)
        took, count = time.monotonic() - began, len(server.asked)
        if not 12.9 < took < 13.9 or not 12 <= count <= 13:
            raise AssertionError(f"after {took:.1f} s and {count} queries")


@case
def servers_at_other_addresses(program):
    """Two servers of a route have a port in common, and addresses of their own. The first fails,
    the second gives a cut reply by UDP and an answer over TCP."""
    port, over_tcp = free_port(), []

    def answers(stream, query):
        over_tcp.append(query)
        stream.sendall(framed(reply_to(query)))

    def fails(query):
        return reply_to(query, flags=0x8580 | SERVFAIL)

    first = Server(fails, port=port, address="127.0.0.2")
    second = Server(cut_reply_to, answers, port=port, address="127.0.0.3")
    with Forwarder(program, [f"127.0.0.2:{port}", f"127.0.0.3:{port}"]) as forwarder:
        forwarder.is_well()
    expect((len(first.asked), len(second.asked), len(over_tcp)), (1, 2, 2))


# Octets: the sufficient size in docs/ADMIN.md. Arguments and environment have a part.
ENOUGH = 256 * 1024


def many_addresses_for(query, count):
    return reply(query, 0x8580, [address(0, *struct.pack(">I", n)) for n in range(count)])


def times_to_live(message, at, count):
    """The TTL of each of the records that begin there."""
    found = []
    for _ in range(count):
        at = name_end(message, at)
        seconds, octets = struct.unpack(">IH", message[at + 4:at + 10])
        found.append(seconds)
        at += 10 + octets
    expect(at, len(message))
    return found


@case
def a_small_stack_is_enough(program):
    """UDP, TCP, replies of 60,000 and 65,000 octets, 4,000 addresses, a denied name, and an expired
    chain of aliases."""
    silent = False

    def by_udp(query):
        if silent:
            return None
        if b"chain0" in query:
            return reply(query, 0x8580, chain(1))
        if b"chain8" in query:
            return reply_to(query, seconds=1)
        if b"addresses" in query:
            return many_addresses_for(query, 4000)
        return long_reply_to(query, 60000) if b"long" in query else reply_to(query)

    def over_tcp(stream, query):
        stream.sendall(framed(long_reply_to(query, 65000)))

    routes = {"test": [Server(cut_reply_to, over_tcp)], "lan": []}
    with Forwarder(program, [Server(by_udp)], routes, version=2, stale_s=60, tries=2, ask_ms=1500,
                   bounds=[(resource.RLIMIT_STACK, ENOUGH)]) as forwarder:
        try:
            forwarder.is_well()
            asked = question("chain0.example")
            expect(forwarder.ask_udp(asked)[2:8], struct.pack(">3H", 0x8180, 1, 9))
            began = time.monotonic()
            for text, octets in (("long.example", 60000), ("long.test", 65000)):
                long = question(text, UNKNOWN)
                is_long_answer(forwarder.ask_tcp(long), long, octets)
            for ask, text, counts in ((forwarder.ask_tcp, "addresses.example", (0x8180, 1, 4000)),
                                      (forwarder.ask_udp, "a.lan", (0x8183, 1, 0))):
                expect(ask(question(text))[2:8], struct.pack(">3H", *counts))
            time.sleep(max(0, began + 2.1 - time.monotonic()))
            silent = True
            for ask in (forwarder.ask_udp, forwarder.ask_tcp):
                expect((answer := ask(asked))[2:8], struct.pack(">3H", 0x8180, 1, 9))
                expect(times_to_live(answer, len(asked), 9), [30] * 9)
        except (EOFError, OSError):
            raise AssertionError(f"it ended with {forwarder.process.wait(5)}")
