"""Captures of servers that can't be reached, of replies that are dropped, and of a service that
stands still."""
from making import asked
from office import ACK, CORPORATE, FIN, FIRST, ONE, OTHER, PLAIN, QUERY, RST, SECOND, SYN, Scene
from repository.packing import TXT, address, framed, message

MULTIHOMED, FORGER = "10.0.0.11:53", "192.0.2.66:53"


def dropped():
    """Replies from another address, with another identifier, too late, for another question; a forged reply before the
    true reply."""
    scene = Scene()
    name = asked("a.corp.example")
    scene.question(0, ONE, 1, name)
    for at in (0, 1001):
        port = scene.query(at + 0.2, CORPORATE, name)
        scene.reply(at + 3.2, MULTIHOMED, port, name, answers=[address(60, 10, 0, 0, 71)])
    scene.answer(2002.2, ONE, 1, name, 0x8182)
    name = asked("b.example.com")
    scene.question(10000, ONE, 2, name)
    port = scene.query(10000.2, FIRST, name)
    scene.reply(10004.2, FIRST, port, name, answers=[address(60, 192, 0, 2, 66)], identifier=port + 1)
    scene.replied(11001.2, 11011.2, SECOND, name, answers=[address(60, 192, 0, 2, 72)])
    scene.answer(11012, ONE, 2, name, answers=[address(60, 192, 0, 2, 72)])
    # The second server is preferred now, then the first.
    name = asked("c.example.com")
    scene.question(20000, ONE, 3, name)
    late = scene.query(20000.2, SECOND, name)
    port = scene.query(21001.2, FIRST, name)
    scene.reply(21702.2, SECOND, late, name, answers=[address(60, 192, 0, 2, 66)])
    scene.reply(21801.2, FIRST, port, name, answers=[address(60, 192, 0, 2, 73)])
    scene.answer(21802, ONE, 3, name, answers=[address(60, 192, 0, 2, 73)])
    name = asked("d.example.com")
    scene.question(30000, ONE, 4, name)
    port = scene.query(30000.2, FIRST, name)
    scene.reply(30001.2, FORGER, port, name, answers=[address(60, 203, 0, 113, 66)])
    scene.reply(30010.2, FIRST, port, name, answers=[address(60, 192, 0, 2, 74)])
    scene.answer(30011, ONE, 4, name, answers=[address(60, 192, 0, 2, 74)])
    other_ways(scene)
    return scene.pcap()


def other_ways(scene):
    """Replies for a wrong question, as a question, and of five octets."""
    name = asked("e.corp.example")
    scene.question(40000, ONE, 5, name)
    port = scene.query(40000.2, CORPORATE, name)
    scene.reply(40002.2, CORPORATE, port, asked("f.corp.example"), answers=[address(60, 10, 0, 0, 75)])
    port = scene.query(41001.2, CORPORATE, name)
    scene.reply(41003.2, CORPORATE, port, name, PLAIN & 0x7FFF)
    scene.udp(41004.2, CORPORATE, f"10.0.0.53:{port}", port.to_bytes(2, "big") + b"\x85\x80\0")
    scene.answer(42002.2, ONE, 5, name, 0x8182)


def outage_ends():
    """No query leaves for a question; 51 ms, and 800 ms, later the name is asked for again, and a query leaves."""
    scene = Scene()
    for at, later, text in ((0, 51, "db.corp.example"), (10000, 800, "ws.corp.example")):
        name = asked(text)
        scene.told(at, at + 0.4, ONE, 1, name, 0x8182)
        scene.fetched(at + later, OTHER, 2, name, 60, (10, 0, 0, 80), CORPORATE)
    return scene.pcap()


def read_late():
    """A query leaves 900 ms after its question; a cached answer comes 1.9 s late; a reply is read after 890 ms."""
    scene, www, slow = Scene(), asked("www.example.com"), asked("slow.example.com")
    scene.question(0, ONE, 1, www)
    scene.replied(900.2, 910.2, FIRST, www, answers=[address(300, 192, 0, 2, 80)])
    scene.answer(911, ONE, 1, www, answers=[address(300, 192, 0, 2, 80)])
    # Accepted at 910 ms: 300 - 5.990 s are left at the reading, and 300 - 4.090 s at the coming.
    scene.told(5000, 6900.2, OTHER, 2, www, answers=[address(294, 192, 0, 2, 80)])
    scene.question(10000, ONE, 3, slow)
    scene.replied(10000.2, 10100.2, FIRST, slow, answers=[address(60, 192, 0, 2, 81)])
    scene.answer(10990.2, ONE, 3, slow, answers=[address(60, 192, 0, 2, 81)])
    # Accepted at 10990 ms: 60 - 0.210 s are left; since the reply came only 60 - 1.100 s would be.
    scene.told(11200, 11200.2, OTHER, 4, slow, answers=[address(59, 192, 0, 2, 81)])
    return scene.pcap()


def read_a_little_late():
    """A question is read 200 ms late, when a second less is left."""
    scene, www = Scene(), asked("www.example.com")
    scene.fetched(0, ONE, 1, www, 300, (192, 0, 2, 80))
    # 300 - 5.090 s are left at the reading, and 300 - 4.890 s at the coming.
    scene.told(4900, 5100.2, ONE, 2, www, answers=[address(294, 192, 0, 2, 80)])
    return scene.pcap()


def stood_still():
    """Replies come within ask_ms, and the service reads them later: each try fails, and then all tries are used."""
    scene, www, lost = Scene(), asked("www.example.com"), asked("x.corp.example")
    scene.question(0, ONE, 1, www)
    scene.replied(0.2, 12.2, FIRST, www, answers=[address(300, 192, 0, 2, 80)])
    scene.replied(1300.2, 1310.2, SECOND, www, answers=[address(300, 192, 0, 2, 80)])
    scene.answer(1311, ONE, 1, www, answers=[address(300, 192, 0, 2, 80)])
    scene.question(20000, ONE, 2, lost)
    for at in (20000.2, 21100.2):
        scene.replied(at, at + 5, CORPORATE, lost, answers=[address(60, 10, 0, 0, 80)])
    scene.answer(22200.4, ONE, 2, lost, 0x8182)
    return scene.pcap()


def stood_still_at_the_beginning():
    """The capture begins while the service stands still: older data live as the answer says at the reading of its
    question. So it is with the preferred server."""
    scene, old, www = Scene(), asked("old.example.com"), asked("www.example.com")
    scene.question(0, ONE, 1, old)
    scene.question(100, OTHER, 2, www)
    scene.answer(4000.2, ONE, 1, old, answers=[address(46, 192, 0, 2, 70)])
    scene.replied(4000.3, 4010.3, SECOND, www, answers=[address(60, 192, 0, 2, 80)])
    scene.answer(4011, OTHER, 2, www, answers=[address(60, 192, 0, 2, 80)])
    scene.told(6000, 6000.2, ONE, 3, old, answers=[address(44, 192, 0, 2, 70)])
    return scene.pcap()


def closed():
    """A server closes, and then resets, the connection of a query."""
    scene, text = Scene(), asked("text.example.com", TXT)
    for at, ending in ((0, FIN), (10000, RST)):
        scene.question(at, ONE, 1, text)
        scene.replied(at + 0.2, at + 3.2, FIRST, text, 0x8780)
        upstream = f"10.0.0.53:{6000 + at // 10000}"
        scene.tcp(at + 3.7, upstream, FIRST, 10, SYN)
        scene.tcp(at + 4.7, FIRST, upstream, 20, SYN | ACK)
        scene.tcp(at + 4.8, upstream, FIRST, 11, ACK, framed(message(77, QUERY, text)))
        scene.tcp(at + 5.7, FIRST, upstream, 21, ending | ACK)
        scene.answer(at + 6.2, ONE, 1, text, 0x8182)
    return scene.pcap()


def joined_late():
    """A question comes when the first try for its name has failed."""
    scene, name = Scene(), asked("www.example.com")
    scene.question(0, ONE, 1, name)
    scene.query(0.2, FIRST, name)
    scene.query(1001.2, SECOND, name)
    scene.question(1500, OTHER, 2, name)
    scene.answer(2002.2, ONE, 1, name, 0x8182)
    scene.answer(2002.3, OTHER, 2, name, 0x8182)
    return scene.pcap()


def asked_late_and_again():
    """A query leaves 4.7 ms after its question. The reply has the lifetime 0, and the capture ends before the query of
    the next question."""
    scene, name = Scene(), asked("www.example.com")
    scene.question(0, ONE, 1, name)
    scene.replied(4.7, 4.9, FIRST, name, answers=[address(0, 192, 0, 2, 80)])
    scene.answer(5, ONE, 1, name, answers=[address(0, 192, 0, 2, 80)])
    scene.question(5.3, OTHER, 2, name)
    return scene.pcap()
