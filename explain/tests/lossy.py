"""Captures that lack packets and have traces of them, and forged replies next to such losses."""
from making import asked
from office import ACK, FIRST, ONE, OTHER, PLAIN, QUERY, SECOND, SYN, Scene
from repository.packing import TXT, address, framed, message, record

FORGER, HELLO = "192.0.2.66:53", b"\x0bhello world"
WWW = asked("www.example.com")


def lost_in_tries():
    """Of a second try the query is missing, of a further try the reply; of two questions under one query the first,
    with the answer and without."""
    scene, name = Scene(), asked("a.example.com")
    scene.question(0, ONE, 1, name)
    scene.query(0.2, FIRST, name)
    scene.reply(1011.2, SECOND, 6001, name, answers=[address(60, 192, 0, 2, 81)])
    scene.answer(1012, ONE, 1, name, answers=[address(60, 192, 0, 2, 81)])
    # The second server is preferred now, then the first.
    name = asked("b.example.com")
    scene.question(10000, ONE, 2, name)
    scene.query(10000.2, SECOND, name)
    scene.query(11001.2, FIRST, name)
    scene.answer(11012, ONE, 2, name, answers=[address(60, 192, 0, 2, 82)])
    for at, text in ((20000, "c.example.com"), (30000, "d.example.com")):
        name = asked(text)
        port = scene.query(at + 0.2, FIRST, name)
        scene.question(at + 4, OTHER, 4, name)
        scene.reply(at + 10.2, FIRST, port, name, answers=[address(60, 192, 0, 2, 83)])
        if at == 20000:
            scene.answer(at + 11, ONE, 3, name, answers=[address(60, 192, 0, 2, 83)])
        scene.answer(at + 11.1, OTHER, 4, name, answers=[address(60, 192, 0, 2, 83)])
    return scene.pcap()


def over_tcp(scene, at, text, left_out):
    """A question whose reply by UDP is cut, with the packets afterwards, but for some of these numbers."""
    name, upstream = asked(text, TXT), f"10.0.0.53:{6000 + at // 1000}"
    answer = [record(b"\xc0\x0c", TXT, 60, HELLO)]
    scene.question(at, ONE, 1, name)
    begins = len(scene.packets)
    scene.replied(at + 0.2, at + 3.2, FIRST, name, 0x8780)
    scene.tcp(at + 3.7, upstream, FIRST, 10, SYN)
    scene.tcp(at + 4.7, FIRST, upstream, 20, SYN | ACK)
    scene.tcp(at + 4.8, upstream, FIRST, 11, ACK, framed(message(77, QUERY, name)))
    scene.tcp(at + 7.7, FIRST, upstream, 21, ACK, framed(message(77, PLAIN, name, answer)))
    for place in sorted(left_out, reverse=True):
        del scene.packets[begins + place]
    scene.answer(at + 8, ONE, 1, name, answers=answer)


def lost_over_tcp():
    """Of five questions whose reply is cut, each lacks another packet: the query by UDP, the reply, the connection's
    beginning, the query over TCP, the reply."""
    scene = Scene()
    for place in range(5):
        over_tcp(scene, 10000 * place, f"{'abcde'[place]}.example.com", [place if place < 3 else place + 1])
    return scene.pcap()


def lost_over_a_connection():
    """Over a connection nothing was captured, neither query nor reply. The answer is too long for a datagram, so
    nothing shows the content of the second reply."""
    scene, name = Scene(), asked("f.example.com", TXT)
    over_tcp(scene, 0, "e.example.com", [4, 5])
    scene.question(10000, ONE, 2, name)
    scene.replied(10000.2, 10003.2, FIRST, name, 0x8780)
    scene.tcp(10003.7, "10.0.0.53:7000", FIRST, 10, SYN)
    scene.tcp(10004.7, FIRST, "10.0.0.53:7000", 20, SYN | ACK)
    scene.tcp(10004.8, "10.0.0.53:7000", FIRST, 11, ACK, framed(message(77, QUERY, name)))
    scene.answer(10008, ONE, 2, name, 0x8380)
    return scene.pcap()


def lost_query_of_a_restart():
    """A cached name is asked for again, by a new process, whose query is missing."""
    scene = Scene()
    scene.fetched(0, ONE, 1, WWW, 300, (192, 0, 2, 80))
    scene.question(9000, ONE, 3, WWW)
    scene.reply(9012.2, FIRST, 6001, WWW, answers=[address(300, 192, 0, 2, 80)])
    scene.answer(9013, ONE, 3, WWW, answers=[address(300, 192, 0, 2, 80)])
    return scene.pcap()


def lost_question_of_a_restart():
    """A process ends while a question is open; the client repeats the question, and the capture lacks this packet."""
    scene = Scene()
    scene.question(0, ONE, 1, WWW)
    scene.query(0.2, FIRST, WWW)
    scene.replied(700.2, 710.2, FIRST, WWW, answers=[address(60, 192, 0, 2, 80)])
    scene.answer(711, ONE, 1, WWW, answers=[address(60, 192, 0, 2, 80)])
    return scene.pcap()


def lost_refused_question():
    """Nothing listens for a missing question; the question before was answered."""
    scene = Scene()
    scene.fetched(0, ONE, 1, WWW, 300, (192, 0, 2, 80))
    scene.unreachable(5000.1, "10.0.0.53", ONE, "10.0.0.53:53")
    scene.fetched(8000, OTHER, 3, WWW, 300, (192, 0, 2, 80))
    return scene.pcap()


def lost_in_the_cache():
    """Of cached data the answer is missing, and then also the reply: the next answer shows that there was a reply."""
    scene, name = Scene(), asked("a.example.com")
    scene.question(0, ONE, 1, WWW)
    scene.replied(0.2, 10.2, FIRST, WWW, answers=[address(300, 192, 0, 2, 80)])
    # Accepted at 10 ms: 300 - 4.990 s are left.
    scene.told(5000, 5000.2, OTHER, 2, WWW, answers=[address(295, 192, 0, 2, 80)])
    scene.question(10000, ONE, 3, name)
    scene.query(10000.2, FIRST, name)
    scene.told(15000, 15000.2, OTHER, 4, name, answers=[address(55, 192, 0, 2, 81)])
    return scene.pcap()


def given_up():
    """A try fails for a reason outside the capture, as without ICMP, and the next server is asked. A third query has no
    reason."""
    scene, name = Scene(), asked("a.example.com")
    scene.question(0, ONE, 1, WWW)
    scene.query(0.2, FIRST, WWW)
    scene.replied(3.2, 13.2, SECOND, WWW, answers=[address(300, 192, 0, 2, 80)])
    scene.answer(14, ONE, 1, WWW, answers=[address(300, 192, 0, 2, 80)])
    # The second server is preferred now.
    scene.question(5000, ONE, 2, name)
    scene.query(5000.2, SECOND, name)
    scene.query(5003.2, FIRST, name)
    scene.replied(5006.2, 5016.2, SECOND, name, answers=[address(60, 192, 0, 2, 81)])
    scene.answer(5017, ONE, 2, name, answers=[address(60, 192, 0, 2, 81)])
    return scene.pcap()


def failed_and_told():
    """A fault: both tries for a name are silent, its question fails, and later the name has an address from no reply.
    """
    scene = Scene()
    scene.question(0, ONE, 1, WWW)
    scene.query(0.2, FIRST, WWW)
    scene.query(1001.2, SECOND, WWW)
    scene.answer(2002.2, ONE, 1, WWW, 0x8182)
    scene.told(5000, 5000.2, OTHER, 2, WWW, answers=[address(55, 192, 0, 2, 81)])
    return scene.pcap()


def forged_next_to_losses():
    """Faults: forged replies are answered, and the query is missing, or the fitting reply. They come from a wrong
    address, under a wrong identifier, for a wrong question, as a question, and after the time of the try."""
    scene, forged = Scene(), [address(300, 203, 0, 113, 66)]
    names = [asked(f"{letter}.example.com") for letter in "abcdef"]
    scene.question(0, ONE, 1, names[0])
    scene.udp(2.2, FORGER, "10.0.0.53:6001", message(6001, PLAIN, names[0], forged))
    scene.answer(3, ONE, 1, names[0], answers=forged)
    for place, name in enumerate(names[1:], 1):
        at, forger, told, flags, number = 10000 * place, FIRST, name, PLAIN, None
        scene.question(at, ONE, 1 + place, name)
        port = scene.query(at + 0.2, FIRST, name)
        if place == 1:
            forger = FORGER
        elif place == 2:
            number = port + 1
        elif place == 3:
            told = asked("x.example.com")
        elif place == 4:
            flags = PLAIN & 0x7FFF
        later = 2.2 if place < 5 else 1602.2
        owned = [address(300, 203, 0, 113, 66, owner=name[:-4])]
        if place == 5:
            scene.query(at + 1001.2, SECOND, name)
        scene.reply(at + later, forger, port, told, flags, answers=owned, identifier=number)
        scene.answer(at + later + 0.8, ONE, 1 + place, name, answers=forged)
    return scene.pcap()
