"""Clients: questions and other octets, and the replies."""
import socket
import statistics
import struct
import subprocess
import sys
import time

from repository.packing import address, code, exactly, framed, name, reply, take_frame
from running.processes import descriptors, resident
from running.trying import until

from .cases import (
    Forwarder, Server, case, descriptors_at_most, free_port, is_served, not_held, reset)
from .messages import (
    REFUSED, SERVFAIL, UNKNOWN, alias_reply_to, chain, expect, head, is_answer, is_long_answer,
    kept_reply_to, long_reply_to, never, number_of, question, reply_to)


@case
def a_question_by_udp_and_over_tcp(program):
    server = Server()
    with Forwarder(program, [server]) as forwarder:
        forwarder.is_well("A.eXample")
        expect(server.asked[0][12:], question("A.eXample")[12:])
        expect(code(forwarder.ask_udp(question("elsewhere.test"))), REFUSED)


def is_silent(kind, place):
    """Nothing answers a question at this place."""
    with socket.socket(socket.AF_INET, kind) as client:
        client.settimeout(2)
        try:
            client.connect(place)
            client.send(question())
            client.recv(65535)
        except ConnectionRefusedError:
            return
        except TimeoutError:
            pass
        raise AssertionError(f"something listens at {place}")


@case
def nobody_is_answered_elsewhere(program):
    """The service answers at the address `listen` alone, by UDP and over TCP."""
    for here, elsewhere in (("127.0.0.1", "127.0.0.2"), ("127.0.0.2", "127.0.0.1")):
        with Forwarder(program, [Server()], address=here) as forwarder:
            forwarder.is_well()
            for kind in (socket.SOCK_DGRAM, socket.SOCK_STREAM):
                is_silent(kind, (elsewhere, forwarder.port))


@case
def an_answer_that_is_kept(program):
    server = Server(kept_reply_to)
    with Forwarder(program, [server]) as forwarder:
        for asked in (question(), question(identifier=7), question()):
            answer = forwarder.ask_udp(asked)
            expect(answer[:-16], head(asked, 0x8180, 1) + asked[12:])
            expect(answer[-4:], b"\xc6\x33\x64\x05")
        expect(len(server.asked), 1)


@case
def an_alias_that_leads_to_another_route(program):
    server, other = Server(lambda query: alias_reply_to(query, "www.test")), Server()
    with Forwarder(program, [server], {"test": [other]}) as forwarder:
        asked, alias = question(), alias_reply_to(question(), "www.test")[12:]
        place = struct.pack(">H", 0xC000 + 12 + len(alias) - len(name("www.test")))
        for ask in (forwarder.ask_udp, forwarder.ask_tcp):
            answer = ask(asked)
            expect(answer[:12], head(asked, 0x8180, 2))
            lived = 300 - struct.unpack(">I", answer[33:37])[0]
            target = place + reply_to(asked)[29:]
            expect(answer[12:33] + answer[37:], alias[:21] + alias[25:] + target)
            if not 0 <= lived <= 5:
                raise AssertionError(f"its TTL says {lived} s old")
        expect([query[12:] for query in server.asked], [asked[12:]])
        expect([query[12:] for query in other.asked], [question("www.test")[12:]] * 2)


@case
def a_question_over_tcp_in_two_pieces_and_octet_by_octet(program):
    with Forwarder(program, [Server()]) as forwarder:
        for cuts in ([3], range(1, 29)):
            with forwarder.tcp() as client:
                client.setsockopt(socket.IPPROTO_TCP, socket.TCP_NODELAY, 1)
                octets, last = framed(question()), 0
                for cut in [*cuts, len(octets)]:
                    client.sendall(octets[last:cut])
                    last = cut
                    time.sleep(0.002)
                is_answer(take_frame(client), question())


@case
def many_questions_on_a_connection_in_any_order(program):
    slow = Server(lambda query: time.sleep(0.3 if b"slow" in query else 0) or reply_to(query))
    with Forwarder(program, [slow, Server()]) as forwarder, forwarder.tcp() as client:
        texts = ["slow0.example", *(f"n{n}.example" for n in range(1, 5))]
        asked = {n: question(text, identifier=n) for n, text in enumerate(texts)}
        client.sendall(b"".join(framed(asked[n]) for n in range(1, 5)))
        client.sendall(framed(asked[0]))
        replies = [take_frame(client) for _ in asked]
        for each in replies:
            is_answer(each, asked[number_of(each)])
        expect(len({each[:2] for each in replies}), 5)


@case
def a_client_that_ended_its_sending_gets_its_answers(program):
    server = Server(lambda query: time.sleep(0.2) or reply_to(query))
    with Forwarder(program, [server]) as forwarder, forwarder.tcp() as client:
        for n in range(3):
            client.sendall(framed(question(f"n{n}.example", identifier=n)))
        client.shutdown(socket.SHUT_WR)
        expect(sorted(number_of(take_frame(client)) for _ in range(3)), [0, 1, 2])
        expect(client.recv(1), b"")


def milliseconds(seconds):
    return ", ".join(f"{1000 * each:.0f}" for each in seconds) + " ms"


@case
def a_client_that_ended_its_sending_beside_many_others(program):
    """Next to 1,000 idle clients the reply of 6,000 octets comes within 50 ms, 10 of them at the
    server, so that the client's end comes first. A single reply of fifteen may come later, on a
    busy machine."""
    server = Server(lambda query: time.sleep(0.01) or long_reply_to(query, 6000))
    with Forwarder(program, [server], bounds=descriptors_at_most(4096)) as forwarder:
        others, took = [forwarder.tcp() for _ in range(1000)], []
        for n in range(15):
            asked = question(f"n{n}.example", UNKNOWN)
            with forwarder.tcp() as client:
                began = time.monotonic()
                client.sendall(framed(asked))
                client.shutdown(socket.SHUT_WR)
                is_long_answer(take_frame(client), asked, 6000)
                took.append(time.monotonic() - began)
        for client in others:
            client.close()
        if sorted(took)[-2] > 0.05:
            raise AssertionError(f"answered after {milliseconds(took)}")


@case
def small_replies_are_not_held_back(program):
    """Two replies on a connection, 5 ms apart, arrive less than 20 ms apart, a quarter of the times
    at least on a busy machine. The client delays its acknowledgement of the first by 40 ms, for
    which a sender might wait before it sends the second (RFC 1122 4.2.3.2 and 4.2.3.4)."""
    server = Server(lambda query: time.sleep(0.005 if b"late" in query else 0) or reply_to(query))
    with Forwarder(program, [server]) as forwarder, forwarder.tcp() as client:
        apart = []
        for n in range(30):
            client.setsockopt(socket.IPPROTO_TCP, socket.TCP_QUICKACK, 0)
            asked = [question(f"n{n}.example", identifier=1),
                     question(f"late{n}.example", identifier=2)]
            client.sendall(b"".join(map(framed, asked)))
            replies = [take_frame(client)]
            first = time.monotonic()
            replies.append(take_frame(client))
            apart.append(time.monotonic() - first)
            for each, message in zip(sorted(replies), asked):
                is_answer(each, message)
        if sorted(apart)[7] > 0.02:
            raise AssertionError(f"{milliseconds(apart)} apart")


@case
def datagrams_that_are_no_questions(program):
    with Forwarder(program, [Server()]) as forwarder, forwarder.udp() as client:
        for count in (0, 1, 11):
            client.send(bytes(count))
        client.send(struct.pack(">6H", 9, 0x0100, 0, 0, 0, 0))
        expect(client.recv(65535), struct.pack(">6H", 9, 0x8181, 0, 0, 0, 0))
        client.send(question() + bytes(65507 - len(question())))
        is_answer(client.recv(65535), question())
        forwarder.is_well()


@case
def streams_that_are_no_questions(program):
    with (Forwarder(program, [Server()]) as forwarder, forwarder.tcp() as nothing,
          forwarder.tcp() as too_much, forwarder.tcp() as half):
        nothing.sendall(b"\0\0" * 1000 + framed(question()))
        is_answer(take_frame(nothing), question())
        too_much.sendall(b"\xff\xff")
        half.sendall(framed(question())[:9])
        half.close()
        other = forwarder.tcp()
        other.sendall(framed(question("reset.example")))
        reset(other)
        forwarder.is_well()
        too_much.sendall(question() + bytes(65535 - len(question())))
        is_answer(take_frame(too_much), question())


@not_held("it sends as fast as it can, which is more than a capture takes")
def a_client_that_never_reads(program):
    with Forwarder(program, [Server()]) as forwarder, forwarder.tcp() as deaf:
        deaf.setblocking(False)
        sent = 0

        def is_closed():
            nonlocal sent
            try:
                while True:
                    deaf.send(framed(question("elsewhere.test")) * 200)
                    sent += 1
            except BlockingIOError:
                return False
            except (ConnectionResetError, BrokenPipeError):
                return True

        until(is_closed, 60, lambda: f"it is open still, after {sent} pieces", 0.005)
        forwarder.is_well()


@case
def silent_clients_are_closed(program):
    """A later client may pause between two questions."""
    server = Server(lambda query: never(query) if b"never" in query else reply_to(query))
    with Forwarder(program, [server], ask_ms=10000, deadline_ms=12000) as forwarder:
        with forwarder.tcp() as silent, forwarder.tcp() as half, forwarder.tcp() as waits:
            began = time.monotonic()
            half.sendall(framed(question())[:9])
            waits.sendall(framed(question("never.example")))
            for client in (silent, half):
                expect(client.recv(1), b"")
                if not 9.5 < time.monotonic() - began < 12:
                    raise AssertionError(f"closed after {time.monotonic() - began:.1f} s")
            expect(code(take_frame(waits)), SERVFAIL)
            forwarder.is_well()
        with forwarder.tcp() as client:
            for text in ("first.example", "second.example"):
                is_served(client, text)
                time.sleep(1)


@case
def a_client_that_resets_while_others_wait(program):
    """Of five clients with one question the second resets before the answer; four get it."""
    server = Server(lambda query: time.sleep(0.5) or reply_to(query))
    with Forwarder(program, [server]) as forwarder:
        clients = [forwarder.tcp() for _ in range(5)]
        for client in clients:
            client.sendall(framed(question()))
        time.sleep(0.1)
        reset(clients.pop(1))
        for client in clients:
            is_answer(take_frame(client), question())
            is_served(client, "again.example")


def small_reader(port):
    """A client whose system takes few octets before it reads them."""
    client = socket.socket()
    client.setsockopt(socket.SOL_SOCKET, socket.SO_RCVBUF, 4096)
    client.settimeout(14)
    client.connect(("127.0.0.1", port))
    return client


def any_reader(port):
    return socket.create_connection(("127.0.0.1", port))


def taken_by_the_system(reader):
    """How many octets the system takes of a server whose client, such a reader, reads nothing."""
    with socket.create_server(("127.0.0.1", 0)) as server, reader(server.getsockname()[1]):
        stream, _ = server.accept()
        stream.setblocking(False)
        taken, end = 0, time.monotonic() + 1
        while time.monotonic() < end:
            try:
                taken += stream.send(bytes(60000))
            except BlockingIOError:
                time.sleep(0.01)
        stream.close()
        return taken


def count_to_the_end(client):
    """How many octets a client can still read of a connection that is closed."""
    count = 0
    try:
        while more := client.recv(65536):
            count += len(more)
    except ConnectionResetError:
        pass
    return count


def read_slowly(client, count):
    """So many octets, at first in pieces of 2,000 for 13 seconds."""
    stream, began = b"", time.monotonic()
    while time.monotonic() < began + 13:
        stream += exactly(client, 2000)
        time.sleep(0.05)
    return stream + exactly(client, count - len(stream))


@case
def clients_that_read_late_or_not_at_all(program):
    """Of answers of 60,000 octets the wire keeps some 800,000, besides the system's. A client that
    reads nothing is gone, and finds the system's alone; a client that reads small pieces, for
    longer than a client may read nothing, gets all."""
    octets, limits = 60000, {"ask_ms": 10000, "deadline_ms": 20000}
    server = Server(lambda query: long_reply_to(query, octets))
    count = taken_by_the_system(small_reader) // octets + 14
    with (Forwarder(program, [server], **limits) as forwarder,
          small_reader(forwarder.port) as deaf, small_reader(forwarder.port) as slow):
        asked = [question(f"n{n:03}.example", UNKNOWN, n) for n in range(count)]
        for client in (deaf, slow):
            client.sendall(b"".join(framed(message) for message in asked))
        size = len(framed(long_reply_to(asked[0], octets)))
        stream = read_slowly(slow, count * size)
        for n in range(count):
            message = stream[n * size + 2:(n + 1) * size]
            is_long_answer(message, asked[number_of(message)], octets)
        until(lambda: descriptors(forwarder.pid) <= 3 + 3, 10, "its connection stays open")
        if count_to_the_end(deaf) > (count - 7) * size:
            raise AssertionError("what was kept for a client that reads nothing reached it")
        other = question("other.example", UNKNOWN)
        is_long_answer(forwarder.ask_tcp(other), other, octets)


MEBIBYTE = 1 << 20


@not_held("it has more than 50 MB of replies")
def memory_of_replies_that_were_taken_is_free_again(program):
    """Twenty-four clients read late: 500,000 octets or more are kept for each, and none after the
    reading, while the connections stay open."""
    server = Server(lambda query: long_reply_to(query, 60000, seconds=300))
    asked = question(kind=UNKNOWN)
    with Forwarder(program, [server]) as forwarder:
        pid, size = forwarder.pid, len(framed(forwarder.ask_tcp(asked)))
        count = taken_by_the_system(any_reader) // size + 9

        def reads_late():
            client = forwarder.tcp()
            client.sendall(framed(asked) * count)
            return client

        with reads_late() as first:
            exactly(first, count * size)
        before = resident(pid)
        clients = [reads_late() for _ in range(24)]
        until(lambda: resident(pid) >= before + 8 * MEBIBYTE, 5,
              lambda: f"{resident(pid) - before} octets were kept")
        for client in clients:
            exactly(client, count * size)
        left = resident(pid) - before
        for client in clients:
            client.close()
        if left > 4 * MEBIBYTE:
            raise AssertionError(f"{left} octets are left")


def chain_reply_to(query):
    """Eight aliases, each of the next name, and an address, for five minutes."""
    last = address(300, 198, 51, 100, 5, owner=name("chain8.example"))
    return reply(query, 0x8580, [*chain(300), last])


FLOOD = """
import socket, sys
client = socket.socket(socket.AF_INET, socket.SOCK_DGRAM)
client.connect(("127.0.0.1", int(sys.argv[1])))
while True:
    try:
        client.send(bytes.fromhex(sys.argv[2]))
    except OSError:
        pass
"""


@not_held("more datagrams come than a capture or the service takes")
def a_question_over_tcp_beside_a_flood(program):
    """While datagrams come as fast as three processes send them, a question over TCP is answered
    within 0.2 s, as a rule. The datagrams ask for a name with eight aliases, whose answer costs
    more than the question."""
    server = Server(lambda query: (chain_reply_to if b"chain" in query else reply_to)(query))
    with Forwarder(program, [server]) as forwarder, forwarder.tcp() as client:
        asked = question("chain0.example").hex()
        flood = [sys.executable, "-c", FLOOD, str(forwarder.port), asked]
        flooding, took = [subprocess.Popen(flood) for _ in range(3)], []
        try:
            time.sleep(0.5)
            for n in range(9):
                began = time.monotonic()
                is_served(client, f"n{n}.example")
                took.append(time.monotonic() - began)
        finally:
            for process in flooding:
                process.kill()
                process.wait()
        if statistics.median(took) > 0.2:
            raise AssertionError(f"answered after {milliseconds([statistics.median(took)])}")


def client_at(address, port, forwarder):
    client = socket.socket(type=socket.SOCK_DGRAM)
    client.settimeout(8)
    client.bind((address, port))
    client.connect((forwarder.address, forwarder.port))
    return client


@case
def clients_of_one_port_at_other_addresses(program):
    """Two clients have a port and an identifier in common, and addresses of their own. Each client
    gets its own answer."""
    port = free_port()
    with (Forwarder(program, [Server()]) as forwarder,
          client_at("127.0.0.4", port, forwarder) as one,
          client_at("127.0.0.5", port, forwarder) as other):
        asked = {one: question("one.example"), other: question("other.example")}
        for client, message in asked.items():
            client.send(message)
        for client, message in asked.items():
            is_answer(client.recv(65535), message)
