"""Bounds of the service: asks, connections, descriptors, buffers, memory and time; and stops."""
import pathlib
import resource
import select
import socket
import statistics
import time

from repository.packing import code, framed, take_frame
from running.processes import addressed, descriptors, resident, spent, waits
from running.trying import until

from .cases import (
    Forwarder, Server, answer_on, case, descriptors_at_most, free_port, in_a_network_of_its_own,
    is_served, not_held, refusing, reset, sockets_of, stopped)
from .messages import (
    REFUSED, SERVFAIL, UNKNOWN, cut_reply_to, expect, is_answer, kept_reply_to, long_reply_to,
    never, number_of, question, reply_to)

AT_REST = 3 + 3  # the standard streams, a poll and two listeners
RECEIVE_BUFFER = 1 << 20


def closed(clients):
    for client in clients:
        client.close()


@case
def as_many_asks_as_may_be(program):
    most = 1024
    waiting = socket.socket(type=socket.SOCK_DGRAM)
    waiting.settimeout(8)
    waiting.bind(("127.0.0.1", free_port()))
    limits = {"inquiries": most, "questions": most, "ask_ms": 10000, "deadline_ms": 20000}
    with (Forwarder(program, [waiting.getsockname()[1]], bounds=descriptors_at_most(4096),
                    **limits) as forwarder, forwarder.udp() as client):
        asked = [question(f"n{n}.example", identifier=n) for n in range(most)]
        queries = []
        for message in asked:
            client.send(message)
            queries.append(waiting.recvfrom(65535))
        for query, path in queries:
            waiting.sendto(reply_to(query), path)
            message = client.recv(65535)
            is_answer(message, asked[number_of(message)])


@case
def more_clients_than_may_be(program):
    with Forwarder(program, [Server()], bounds=descriptors_at_most(4096)) as forwarder:
        clients = [forwarder.tcp() for _ in range(1030)]
        forwarder.is_well()
        expect(clients[0].recv(1), b"")
        is_served(clients[-1])
        closed(clients)
        forwarder.is_well()


@case
def as_many_clients_as_may_be_with_a_piece_each(program):
    """1,024 clients send a part of a question, and then the rest."""
    with Forwarder(program, [Server()], bounds=descriptors_at_most(4096)) as forwarder:
        asked = [framed(question(identifier=n)) for n in range(1024)]
        clients = []
        for octets in asked:
            clients.append(forwarder.tcp())
            clients[-1].sendall(octets[:9])
        for client, octets in zip(clients, asked):
            client.sendall(octets[9:])
        for n, client in enumerate(clients):
            is_answer(take_frame(client), asked[n][2:])
        closed(clients)
        forwarder.is_well()


@case
def no_descriptor_is_left(program):
    """Connections without question for a second give way to queries, new ones do not."""
    with Forwarder(program, [Server()], bounds=descriptors_at_most(40)) as forwarder:
        clients = [forwarder.tcp() for _ in range(40)]
        time.sleep(0.1)
        forwarder.fails()
        expect(code(answer_on(clients[0], question("elsewhere.test"))), REFUSED)
        time.sleep(2.5)
        for n in range(10):
            forwarder.answers(f"n{n}.example")
        closed(clients)
        forwarder.is_well()


def waits_of_five_milliseconds(seconds):
    """How often a wait of 5 ms ends here in so many seconds: fewer than 200 times a second."""
    end, count = time.monotonic() + seconds, 0
    with select.epoll() as nothing:
        while time.monotonic() < end:
            nothing.poll(0.005)
            count += 1
    return count


@case
def a_service_that_is_idle(program):
    """The service takes at most 3 % of a processor and waits 5 ms at a time: the number of waits is
    0.75 to 1.5 times this process's, which waits alike meanwhile."""
    with Forwarder(program, [Server()]) as forwarder:
        pid = forwarder.pid
        time.sleep(1)
        expect(descriptors(pid), AT_REST)
        before, waited = spent(pid), waits(pid)
        here = waits_of_five_milliseconds(3)
        share, there = (spent(pid) - before) / 3, waits(pid) - waited
        if share > 0.03 or not 0.75 <= there / here <= 1.5:
            raise AssertionError(f"{share:.1%} of a processor, {there} wake-ups next to {here}")


def are_free_again(pid, before):
    """Within a second no descriptor more is open than before."""
    until(lambda: descriptors(pid) <= before, 1,
          lambda: f"{descriptors(pid)} descriptors are open, and {before} before")


@case
def clients_that_ask_and_close_leave_nothing(program):
    """Thirty clients ask and close: their descriptors are free within a second."""
    with Forwarder(program, [Server()]) as forwarder:
        forwarder.is_well()
        time.sleep(1)
        before = descriptors(forwarder.pid)
        clients = [forwarder.tcp() for _ in range(30)]
        for n, client in enumerate(clients):
            client.sendall(framed(question(f"n{n}.example")))
        for n, client in enumerate(clients):
            is_answer(take_frame(client), question(f"n{n}.example"))
        closed(clients)
        are_free_again(forwarder.pid, before)


@not_held("no packet shows that the system refused a socket, and a failure for it is different")
def sockets_that_the_system_refuses_are_closed(program):
    """In each row the system refuses a call for sixty queries or sixty clients: to send a query, to
    report on the query's socket, or on the connection after a cut reply; to report on a client's
    connection, to send there without delay. No descriptor more is open afterwards."""
    server, cut = Server(), Server(cut_reply_to)

    def is_closed(forwarder, _):
        with forwarder.tcp() as client:
            expect(client.recv(1), b"")

    rows = [
        ("sendto:error=EPERM:when=1+2", server, 1, Forwarder.fails),  # else the client's replies
        ("epoll_ctl:error=ENOMEM", server, 1, Forwarder.fails),
        ("epoll_ctl:error=ENOMEM:when=2+2", cut, 2, Forwarder.fails),
        ("epoll_ctl:error=ENOMEM", server, 1, is_closed),
        ("setsockopt:error=ENOMEM", server, 1, is_closed),
    ]
    for calls, asked_server, tries, is_refused in rows:
        with Forwarder(program, [asked_server], tries=tries) as forwarder:
            forwarder.is_well()
            are_free_again(forwarder.pid, AT_REST)
            with refusing(forwarder.pid, calls):
                for n in range(60):
                    is_refused(forwarder, f"n{n}.example")
            are_free_again(forwarder.pid, AT_REST)


def rests(forwarder):
    """A client, idle for more than a second: to be closed if no descriptor is left."""
    client = forwarder.tcp()
    is_served(client)
    time.sleep(1.2)
    return client


def stays_while_a_server_is_away(program, away):
    """A client stays connected while the server of a route cannot be reached."""
    with (Forwarder(program, [Server()], {"test": [away]}) as forwarder,
          rests(forwarder) as client):
        forwarder.fails("away.test")
        is_served(client, "again.example")


@case
def a_client_that_rests_while_a_server_cannot_be_reached(program):
    """The client stays, since descriptors are left. A broadcast address gives EACCES."""
    stays_while_a_server_is_away(program, "255.255.255.255:53")


@case
def a_client_that_rests_while_no_network_is_there(program):
    """The client stays if there is no route to the server (ENETUNREACH)."""
    in_a_network_of_its_own(lambda: stays_while_a_server_is_away(program, "192.0.2.1:53"))


def taken_ports(step):
    """Sockets at ports that may be drawn, `step` apart; some ports are in use already."""
    for port in range(1024, 65536, step):
        other = socket.socket(type=socket.SOCK_DGRAM)
        try:
            other.bind(("0.0.0.0", port))
        except OSError:
            pass
        yield other


@case
def a_client_that_rests_while_drawn_ports_are_taken(program):
    """The client stays while programs have up to 4,000 of the 64,512 ports. Of 200 questions with a
    single try, some fail: the query draws a port in use."""
    limits = {"ask_ms": 1500, "deadline_ms": 5000, "tries": 1}
    most = resource.getrlimit(resource.RLIMIT_NOFILE)[0]
    with Forwarder(program, [Server()], **limits) as forwarder, rests(forwarder) as client:
        taken = list(taken_ports(max(16, 64512 // max(1, most - 500))))
        try:
            codes = [code(forwarder.ask_udp(question(f"n{n}.example"))) for n in range(200)]
        finally:
            closed(taken)
        if codes.count(SERVFAIL) == 0 or codes.count(0) == 0:
            raise AssertionError(f"{codes.count(SERVFAIL)} of {len(codes)} failed")
        is_served(client, "again.example")


@case
def a_client_comes_where_no_descriptor_is_left(program):
    """Connections without question for a second give way to the client, and to waiting ones."""
    with Forwarder(program, [Server()], bounds=descriptors_at_most(64)) as forwarder:
        clients = [forwarder.tcp() for _ in range(100)]
        time.sleep(1.2)
        with forwarder.tcp() as client:
            client.settimeout(4)
            is_served(client)
        expect(clients[0].recv(1), b"")
        closed(clients)
        forwarder.is_well()


@case
def many_asks_in_turn_under_few_descriptors(program):
    """The descriptor of each query is free again after the query's end: by a reply, by a failure,
    by a refusal of the system to connect (EACCES), by a cut reply and a reply over TCP. So is the
    descriptor of each client over TCP that closed."""
    server, failing = Server(), (free_port(), "255.255.255.255:53")
    rows = [(server, False), *((each, False) for each in failing), (Server(cut_reply_to), False),
            (server, True)]
    for asked_server, over_tcp in rows:
        with Forwarder(program, [asked_server], bounds=descriptors_at_most(64)) as forwarder:
            before = descriptors(forwarder.pid)
            ask = forwarder.ask_tcp if over_tcp else forwarder.ask_udp
            for n in range(200):
                answer = ask(asked := question(f"n{n}.example"))
                if asked_server in failing:
                    expect(code(answer), SERVFAIL)
                else:
                    is_answer(answer, asked)
            are_free_again(forwarder.pid, before)


def takes_no_more(forwarder, ask, first, rest):
    """After `rest` questions more than `first`, at most 1 MiB more is in use."""
    for n in range(first):
        ask(n)
    before = resident(forwarder.pid)
    for n in range(first, first + rest):
        ask(n)
    more = resident(forwarder.pid) - before
    if more > 1 << 20:
        raise AssertionError(f"{more} octets more after {rest} questions")


@not_held("explaining 22,000 questions takes longer than all else")
def memory_of_datagrams_and_connections_is_used_again(program):
    """After 20,000 questions by UDP, and after 2,000 over connections of their own, at most 1 MiB
    more is in use than after the first 1,000 and 100. 4,000 octets follow each question, so that
    any leak shows."""
    asked = question() + bytes(4000)
    with Forwarder(program, [Server(kept_reply_to)]) as forwarder, forwarder.udp() as client:
        def by_udp(_):
            client.send(asked)
            client.recv(65535)

        takes_no_more(forwarder, by_udp, 1000, 19000)
        takes_no_more(forwarder, lambda _: forwarder.ask_tcp(asked), 100, 1900)


@not_held("explaining so many queries takes longer than all else")
def memory_of_queries_and_their_replies_is_used_again(program):
    """After 6,000 misses, by UDP and then over TCP, at most 1 MiB more is in use than after the
    first 200, which fill the cache. Each name has some 250 octets, and each reply 4,000, so that
    any leak shows."""
    def replies(query):
        return long_reply_to(query, 4000, seconds=300)

    def answers(stream, query):
        stream.sendall(framed(replies(query)))

    above = ".".join([*(letter * 63 for letter in "abc"), "d" * 40, "example"])
    for server in (Server(replies), Server(cut_reply_to, answers)):
        with Forwarder(program, [server], cache=64) as forwarder, forwarder.udp() as client:
            def ask(n):
                client.send(question(f"n{n}.{above}", UNKNOWN))
                client.recv(65535)

            takes_no_more(forwarder, ask, 200, 6000)


@case
def cached_answers_come_at_once(program):
    """Of 60 cached answers by UDP, asked for one at a time, the median takes less than 2 ms: no
    wait for a round of 5 ms is in it. At 50 questions a second the service takes at most 3 % of a
    processor."""
    with Forwarder(program, [Server(kept_reply_to)]) as forwarder, forwarder.udp() as client:
        forwarder.ask_udp(question())
        took, before, began = [], spent(forwarder.pid), time.monotonic()
        for n in range(60):
            time.sleep(max(0, began + 0.02 * n - time.monotonic()))
            asked = time.monotonic()
            client.send(question())
            client.recv(65535)
            took.append(time.monotonic() - asked)
        share = (spent(forwarder.pid) - before) / (time.monotonic() - began)
        median = 1000 * statistics.median(took)
        if median > 2 or share > 0.03:
            raise AssertionError(f"{median:.1f} ms, {share:.1%} of a processor")


@not_held("explaining so many connections takes longer than all else")
def more_clients_in_turn_than_16_bits_count(program):
    """After 66,000 that connected and reset, each thousandth time too, questions are answered."""
    with Forwarder(program, [Server()]) as forwarder:
        for _ in range(66):
            for _ in range(1000):
                reset(socket.create_connection((forwarder.address, forwarder.port)))
            forwarder.is_well()


@case
def more_clients_that_wait_than_may_be(program):
    """Of 1,100 clients with a question in common 1,024 get an answer; the last are closed."""
    limits = {"questions": 4096, "ask_ms": 9000, "deadline_ms": 9500}
    with Forwarder(program, [Server(never)], bounds=descriptors_at_most(4096),
                   **limits) as forwarder:
        clients = []
        for n in range(1100):
            clients.append(forwarder.tcp())
            clients[-1].sendall(framed(question(identifier=n)))
        answered = 0
        for n, client in enumerate(clients):
            try:
                answered += number_of(take_frame(client)) == n
            except (EOFError, ConnectionResetError):
                pass
            client.close()
        expect(answered, 1024)


def bound_memory(forwarder):
    """Leaves 4 MB to a service."""
    room = addressed(forwarder.pid) + 4_000_000
    resource.prlimit(forwarder.pid, resource.RLIMIT_AS, (room, room))


@not_held("events are lost for want of memory")
def events_that_find_no_memory_are_counted(program):
    """With memory for few answers of 60,000 octets, some replies are lost."""
    server = Server(lambda query: long_reply_to(query, 60000, seconds=300))
    with Forwarder(program, [server], turns=1500, ask_ms=200, tries=1) as forwarder:
        bound_memory(forwarder)
        with forwarder.udp() as client:
            for n in range(300):
                client.send(question(f"n{n}.example", UNKNOWN))
                time.sleep(0.002)
        printed, errors = forwarder.process.communicate(timeout=30)
        words = printed.split()
        expect((words[:3], errors, forwarder.process.returncode),
               ([b"turns", b"1500", b"lost"], b"", 0))
        if int(words[3]) == 0:
            raise AssertionError("none was lost")


@case
def a_stream_that_finds_no_memory_ends_the_service(program):
    """Messages of 65,535 octets use up the left memory: the service ends with status 4."""
    with Forwarder(program, [Server()], bounds=descriptors_at_most(4096)) as forwarder:
        forwarder.is_well()
        bound_memory(forwarder)
        clients = []
        for _ in range(500):
            try:
                clients.append(forwarder.tcp())
                clients[-1].sendall(b"\xff\xff" + bytes(60000))
            except OSError:
                break
        forwarder.ends_with(b"", b"memory\n", 4)


@case
def a_burst_while_the_service_is_stopped(program):
    """The service asks the system for 1 MiB for waiting datagrams, and gets twice the system's
    limit at most (socket(7)). A question takes some 768 octets. So 1,000 questions during a stop of
    the service are answered if the limit is half a MiB or more, and otherwise 400."""
    allowed = int(pathlib.Path("/proc/sys/net/core/rmem_max").read_text())
    count = 1000 if allowed >= RECEIVE_BUFFER // 2 else 400
    with Forwarder(program, [Server(kept_reply_to)]) as forwarder, forwarder.udp() as client:
        forwarder.ask_udp(question())
        client.setsockopt(socket.SOL_SOCKET, socket.SO_RCVBUF, RECEIVE_BUFFER)
        with stopped(forwarder):
            for n in range(count):
                client.send(question(identifier=n))
        expect({number_of(client.recv(65535)) for _ in range(count)}, set(range(count)))
        for each in sockets_of(forwarder.pid):
            with each:
                if each.type == socket.SOCK_DGRAM:
                    size = each.getsockopt(socket.SOL_SOCKET, socket.SO_RCVBUF)
                    expect(size, 2 * min(RECEIVE_BUFFER, allowed))


@case
def a_burst_beside_an_open_query(program):
    """A query stays without answer, and 300 cached questions come while the service is stopped. The
    service answers in turn, and sleeps 60 times at most until the last, in a single burst of three
    at least."""
    server = Server(lambda query: never(query) if b"never" in query else kept_reply_to(query))
    limits = {"ask_ms": 10000, "deadline_ms": 20000}
    with (Forwarder(program, [server], **limits) as forwarder, forwarder.udp() as other,
          forwarder.udp() as client):
        client.setsockopt(socket.SOL_SOCKET, socket.SO_RCVBUF, RECEIVE_BUFFER)
        forwarder.ask_udp(question())
        other.send(question("never.example"))
        slept = []
        for _ in range(3):
            with stopped(forwarder):
                for n in range(300):
                    client.send(question(identifier=n))
                before = waits(forwarder.pid)
            expect(len({client.recv(65535)[:2] for _ in range(300)}), 300)
            slept.append(waits(forwarder.pid) - before)
        if min(slept) > 60:
            raise AssertionError(f"it slept {' and '.join(map(str, slept))} times")


@case
def a_question_that_is_read_after_its_deadline(program):
    """The question comes after 400 cached ones, while the service is stopped. The service reads a
    few, and is stopped again, for longer than a question may wait for a reply. A question's time
    begins when the service reads it: the question is answered. If the service read the question
    before the long stop, the next attempt lets the service run less."""
    def by_udp(query):
        time.sleep(0.1)
        return kept_reply_to(query) if b"kept" in query else reply_to(query)

    limits = {"ask_ms": 1500, "deadline_ms": 1500}
    with (Forwarder(program, [server := Server(by_udp)], **limits) as forwarder,
          forwarder.udp() as other, forwarder.udp() as client):
        forwarder.ask_udp(question("kept.example"))
        for runs in (3, 1, 0):
            late = question(f"late{runs}.example")
            with stopped(forwarder):
                for n in range(400):
                    other.send(question("kept.example", identifier=n))
                client.send(late)
            for _ in range(runs):
                time.sleep(0.0005)
                with stopped(forwarder):
                    time.sleep(0.0005)
            with stopped(forwarder):
                time.sleep(2)
                was_read = any(f"late{runs}".encode() in query for query in server.asked)
            message = client.recv(65535)
            if not was_read:
                return is_answer(message, late)
