"""Captures of replies that a packet filter on the service's own machine drops, and of queries refused by the filter. A
capture gets a packet before the filter."""
from making import asked
from office import ACK, CORPORATE, FIRST, FORWARDER, ONE, OTHER, QUERY, REPLY, SECOND, SYN, Scene
from repository.packing import address, framed, message

FOUND = [address(60, 192, 0, 2, 80)]


def others(scene, since, until, step=200):
    """Questions from another client, answered at once."""
    for number in range(since, until, step):
        scene.fetched(number, OTHER, number & 0xFFFF, asked(f"n{number}.example.com"), 60, (192, 0, 2, 81), FIRST)


def replies_are_dropped():
    """A reply comes and is not taken: the service waits until the try is over. Meanwhile the service goes on. Later the
    filter is off, and the name is asked for again: the reply was not cached."""
    scene, name = Scene(), asked("db.corp.example")
    scene.question(0, ONE, 1, name)
    for at in (0.2, 1001.2):
        scene.replied(at, at + 4, CORPORATE, name, answers=[address(60, 10, 0, 0, 71)])
    scene.answer(2002.2, ONE, 1, name, 0x8182)
    others(scene, 100, 2000)
    scene.fetched(5000, ONE, 2, name, 60, (10, 0, 0, 71), CORPORATE)
    return scene.pcap()


def replies_of_one_server_are_dropped():
    """The second server is asked when the first try is over, and gives a new address."""
    scene, name = Scene(), asked("www.example.com")
    scene.fetched(0, OTHER, 1, asked("old.example.com"), 60, (192, 0, 2, 79))
    scene.question(50, ONE, 2, name)
    scene.replied(50.2, 60.2, FIRST, name, answers=[address(60, 192, 0, 2, 66)])
    for at in range(100, 1000, 200):
        scene.told(at, at + 0.2, OTHER, at, asked("old.example.com"), answers=[address(59, 192, 0, 2, 79)])
    scene.replied(1051.2, 1061.2, SECOND, name, answers=FOUND)
    scene.answer(1062, ONE, 2, name, answers=FOUND)
    return scene.pcap()


def dropped_and_used():
    """A fault: the answer has the dropped reply's address, after the reply of the next server."""
    scene, name = Scene(), asked("www.example.com")
    scene.question(0, ONE, 1, name)
    scene.replied(0.2, 10.2, FIRST, name, answers=[address(60, 192, 0, 2, 66)])
    others(scene, 100, 1000)
    scene.replied(1001.2, 1011.2, SECOND, name, answers=FOUND)
    scene.answer(1012, ONE, 1, name, answers=[address(60, 192, 0, 2, 66)])
    return scene.pcap()


def dropped_with_nothing_else():
    """As the first scene, without a further question."""
    scene, name = Scene(), asked("db.corp.example")
    scene.question(0, ONE, 1, name)
    for at in (0.2, 1001.2):
        scene.replied(at, at + 4, CORPORATE, name, answers=[address(60, 10, 0, 0, 71)])
    scene.answer(2002.2, ONE, 1, name, 0x8182)
    return scene.pcap()


def queries_are_refused():
    """The packet filter refuses the query to the first server: ICMP of the own machine has the query."""
    scene, name = Scene(), asked("www.example.com")
    scene.question(0, ONE, 1, name)
    scene.unreachable(0.3, "10.0.0.53", "10.0.0.53:7001", FIRST, 13, message(7001, QUERY, name))
    scene.replied(0.5, 10.5, SECOND, name, answers=FOUND)
    scene.answer(11, ONE, 1, name, answers=FOUND)
    return scene.pcap()


def used_over_tcp():
    """A client over TCP gets a reply's address with the lifetime 0. When the query's time would be over, a second
    client asks for the name: the reply was taken."""
    scene, name, client = Scene(), asked("www.example.com"), "10.0.0.9:50000"
    scene.tcp(0, client, FORWARDER, 100, SYN)
    scene.tcp(0.1, FORWARDER, client, 900, SYN | ACK)
    scene.tcp(0.2, client, FORWARDER, 101, ACK, framed(message(2, QUERY, name)))
    scene.replied(0.4, 10.4, FIRST, name, answers=[address(0, 192, 0, 2, 80)])
    scene.tcp(11, FORWARDER, client, 901, ACK, framed(message(2, REPLY, name, [address(0, 192, 0, 2, 80)])))
    scene.fetched(1005, ONE, 1, name, 60, (192, 0, 2, 81))
    return scene.pcap()
