"""Captures of a service that begins anew."""
from lossy import over_tcp
from making import asked
from office import ACK, FIRST, FORWARDER, ONE, OTHER, RST, SECOND, SYN, Scene
from repository.packing import address, framed

WWW = asked("www.example.com")


def restarted():
    """A cached name is asked for again, by a new process, and then answered from the new cache."""
    scene = Scene()
    scene.fetched(0, ONE, 1, WWW, 300, (192, 0, 2, 80))
    # Accepted at 10 ms: 300 - 1.990 s are left.
    scene.told(2000, 2000.2, OTHER, 2, WWW, answers=[address(298, 192, 0, 2, 80)])
    scene.question(9000, ONE, 3, WWW)
    scene.replied(9000.2, 9012.2, FIRST, WWW, answers=[address(300, 192, 0, 2, 80)])
    scene.answer(9013, ONE, 3, WWW, answers=[address(300, 192, 0, 2, 80)])
    # Accepted at 9012 ms: 300 - 0.988 s are left.
    scene.told(10000, 10000.3, OTHER, 4, WWW, answers=[address(299, 192, 0, 2, 80)])
    return scene.pcap()


def cut_before_a_told_restart():
    """A reply is cut as the service ends, and its name is then answered by the other server. The next connection is for
    a later cut reply: it asks for no cached name."""
    scene = Scene()
    scene.question(0, ONE, 1, WWW)
    scene.replied(0.2, 10.2, FIRST, WWW, 0x8780)
    scene.question(200, ONE, 1, WWW)
    scene.replied(200.2, 210.2, SECOND, WWW, answers=[address(300, 192, 0, 2, 80)])
    scene.answer(211, ONE, 1, WWW, answers=[address(300, 192, 0, 2, 80)])
    over_tcp(scene, 300, "text.example.com", [])
    # Accepted at 210 ms: 300 - 1.790 s are left.
    scene.told(2000, 2000.2, OTHER, 2, WWW, answers=[address(298, 192, 0, 2, 80)])
    return scene.pcap()


def failed_early_after_a_restart():
    """A fault: a client repeats its question after a refusal of another, and SERVFAIL comes before the tries are over.
    The question from before the restart could have failed then."""
    scene = Scene()
    scene.question(0, ONE, 1, WWW)
    for at, server in ((0.2, FIRST), (1000.2, SECOND), (1800.2, FIRST)):
        scene.query(at, server, WWW)
    scene.question(1500, OTHER, 2, WWW)
    scene.unreachable(1500.1, "10.0.0.53", OTHER, FORWARDER)
    scene.question(1800, ONE, 1, WWW)
    scene.answer(2000.5, ONE, 1, WWW, 0x8182)
    return scene.pcap()


def answered_twice():
    """A fault: a question has a second answer, with another address."""
    scene = Scene()
    scene.fetched(0, ONE, 1, WWW, 300, (192, 0, 2, 80))
    scene.answer(40, ONE, 1, WWW, answers=[address(300, 192, 0, 2, 66)])
    return scene.pcap()


def restarted_in_flight():
    """A question is open when the process ends; the client repeats it under one identifier. Once a reply comes for
    nobody, once no reply."""
    scene, mail = Scene(), asked("mail.example.com")
    scene.question(0, ONE, 1, WWW)
    scene.replied(0.2, 400.2, FIRST, WWW, answers=[address(300, 192, 0, 2, 80)])
    scene.fetched(1200, ONE, 1, WWW, 300, (192, 0, 2, 80))
    scene.question(20000, OTHER, 3, mail)
    scene.query(20000.2, FIRST, mail)
    scene.fetched(20700, OTHER, 3, mail, 60, (192, 0, 2, 25))
    return scene.pcap()


def restarted_standing_still():
    """A process stands still, and ends: neither a cached name nor a new name is answered. A new process is asked for
    both: only this shows the restart, and the unanswered questions show its time."""
    scene, mail = Scene(), asked("mail.example.com")
    scene.fetched(0, ONE, 1, WWW, 300, (192, 0, 2, 80))
    scene.question(2500, ONE, 2, mail)
    scene.question(2600, OTHER, 3, WWW)
    scene.fetched(5000, OTHER, 4, mail, 60, (192, 0, 2, 25))
    scene.fetched(6000, ONE, 5, WWW, 300, (192, 0, 2, 80))
    return scene.pcap()


def refused():
    """Nothing listens for five seconds: ICMP and a reset say so. Then the cache is empty."""
    scene = Scene()
    scene.fetched(0, ONE, 1, WWW, 300, (192, 0, 2, 80))
    scene.question(5000, ONE, 2, WWW)
    scene.unreachable(5000.1, "10.0.0.53", ONE, FORWARDER)
    client = "10.0.0.9:50000"
    scene.tcp(5500, client, FORWARDER, 100, SYN)
    scene.tcp(5500.1, FORWARDER, client, 0, RST | ACK)
    scene.fetched(8000, OTHER, 3, WWW, 300, (192, 0, 2, 80))
    return scene.pcap()


def refused_alone():
    """Nothing listens, and later a name is asked that was never cached: only ICMP shows the restart."""
    scene = Scene()
    scene.fetched(0, ONE, 1, WWW, 300, (192, 0, 2, 80))
    scene.question(5000, ONE, 2, WWW)
    scene.unreachable(5000.1, "10.0.0.53", ONE, FORWARDER)
    scene.fetched(8000, OTHER, 3, asked("mail.example.com"), 60, (192, 0, 2, 25))
    return scene.pcap()


def refused_in_a_long_capture():
    """Nothing listens for a connection; then come 7,600 empty messages over a new connection, and the cached name is
    asked for again."""
    scene, flood = Scene(), "10.0.0.9:50000"
    scene.fetched(0, ONE, 1, WWW, 300, (192, 0, 2, 80))
    scene.tcp(5000, "10.0.0.7:50000", FORWARDER, 100, SYN)
    scene.tcp(5000.1, FORWARDER, "10.0.0.7:50000", 0, RST | ACK)
    scene.tcp(5100, flood, FORWARDER, 100, SYN)
    scene.tcp(5100.1, FORWARDER, flood, 900, SYN | ACK)
    for count in range(8):
        scene.tcp(5101 + count, flood, FORWARDER, 101 + 1900 * count, ACK, framed(b"") * 950)
    scene.fetched(6000, ONE, 2, WWW, 300, (192, 0, 2, 80))
    return scene.pcap()


def rejected():
    """A packet filter of the service's machine rejects a question, and a cached name is answered later. The service
    went on: it answers a question from before."""
    scene, mail = Scene(), asked("mail.example.com")
    scene.fetched(0, ONE, 1, WWW, 300, (192, 0, 2, 80))
    scene.fetched(4995, OTHER, 4, mail, 60, (192, 0, 2, 25))
    scene.question(5000, ONE, 2, WWW)
    scene.unreachable(5000.1, "10.0.0.53", ONE, FORWARDER)
    scene.told(8000, 8000.2, OTHER, 3, WWW, answers=[address(292, 192, 0, 2, 80)])
    return scene.pcap()


def restarted_near_an_end():
    """The first name of a new process had 600 ms left in the cache, almost expired; the second had minutes left. The
    first reply is used from the cache in between."""
    scene, mail = Scene(), asked("mail.example.com")
    scene.fetched(0, ONE, 1, WWW, 5, (192, 0, 2, 80))
    scene.fetched(1000, ONE, 2, mail, 300, (192, 0, 2, 25))
    scene.fetched(4400, OTHER, 3, WWW, 60, (192, 0, 2, 81))
    # Accepted at 4410 ms: 60 - 0.390 s are left.
    scene.told(4800, 4800.2, ONE, 4, WWW, answers=[address(59, 192, 0, 2, 81)])
    scene.fetched(6000, OTHER, 5, mail, 300, (192, 0, 2, 25))
    return scene.pcap()


def second_preferred():
    """The capture begins when the second server is preferred, until it is silent. A new process begins with the first
    server, which can't be reached then."""
    scene, new, chat = Scene(), asked("new.example.com"), asked("chat.example.com")
    scene.fetched(0, ONE, 1, WWW, 300, (192, 0, 2, 80), server=SECOND)
    scene.question(2000, ONE, 2, new)
    scene.query(2000.2, SECOND, new)
    scene.replied(3001.2, 3011.2, FIRST, new, answers=[address(60, 192, 0, 2, 81)])
    scene.answer(3012, ONE, 2, new, answers=[address(60, 192, 0, 2, 81)])
    scene.fetched(5000, OTHER, 3, chat, 60, (192, 0, 2, 82))
    scene.question(9000, ONE, 4, WWW)
    scene.unreachable(9000.1, "10.0.0.53", ONE, "10.0.0.53:53")
    scene.fetched(12000, ONE, 5, WWW, 300, (192, 0, 2, 80), server=SECOND)
    return scene.pcap()


def restart_not_shown():
    """Between the two questions the service begins anew, so there is no expired data. Only
    --restarted says so."""
    scene = Scene()
    scene.fetched(0, ONE, 1, WWW, 5, (192, 0, 2, 80))
    scene.question(9000, ONE, 2, WWW)
    scene.query(9000.2, FIRST, WWW)
    scene.query(10001.2, SECOND, WWW)
    scene.answer(11002.2, ONE, 2, WWW, 0x8182)
    return scene.pcap()
