"""Captures with packets that anyone can send, and with clients that are servers, too."""
from making import asked
from office import ACK, CORPORATE, FIRST, FORWARDER, ONE, OTHER, PLAIN, QUERY, REPLY, SECOND, SYN, Scene
from repository.packing import TXT, address, framed, message, record

WWW = asked("www.example.com")


def short_answers():
    """Messages of 2 to 11 octets as if from the service: next to its answer, and in its place."""
    scene = Scene()
    scene.question(0, ONE, 1, WWW)
    for count in range(2, 12):
        scene.udp(0.1 + count / 100, FORWARDER, ONE, (b"\0\1" + bytes(9))[:count])
    scene.replied(0.4, 10.4, FIRST, WWW, answers=[address(300, 192, 0, 2, 80)])
    scene.answer(11, ONE, 1, WWW, answers=[address(300, 192, 0, 2, 80)])
    # A fault, if the service sent it: 300 - 4.990 s are left.
    scene.question(5000, ONE, 2, WWW)
    scene.udp(5000.2, FORWARDER, ONE, b"\0\2")
    return scene.pcap()


def unreadable_after_a_silence():
    """A server is silent, and later an answer comes as if from the service, whose record is cut."""
    scene = Scene()
    scene.question(0, ONE, 1, WWW)
    scene.query(0.2, FIRST, WWW)
    scene.question(5000, OTHER, 2, WWW)
    scene.udp(5000.2, FORWARDER, OTHER, message(2, REPLY, WWW, [address(300, 192, 0, 2, 80)])[:-2])
    return scene.pcap()


def from_port_0():
    """A question and a forged reply come from port 0, which can get no packet."""
    scene = Scene()
    scene.question(0, "10.0.0.9:0", 1, WWW)
    port = scene.query(0.2, FIRST, WWW)
    scene.reply(2.2, "192.0.2.1:0", port, WWW, answers=[address(300, 203, 0, 113, 66)])
    scene.reply(10.2, FIRST, port, WWW, answers=[address(300, 192, 0, 2, 80)])
    # 300 - 4.990 s are left.
    scene.told(5000, 5000.2, ONE, 2, WWW, answers=[address(295, 192, 0, 2, 80)])
    return scene.pcap()


def a_server_asks():
    """A client is a server of the configuration, too, with one port for both. A fault: the second answer has a wrong
    address."""
    scene = Scene()
    scene.fetched(0, CORPORATE, 1, WWW, 300, (192, 0, 2, 80))
    # 300 - 4.990 s are left.
    scene.told(5000, 5000.2, CORPORATE, 2, WWW, answers=[address(295, 192, 0, 2, 81)])
    return scene.pcap()


def one_port():
    """A query by UDP and a query over TCP have one port of the service at one time."""
    scene, text, hello = Scene(), asked("text.example.com", TXT), b"\x0bhello world"
    scene.question(0, ONE, 1, text)
    scene.replied(0.2, 3.2, FIRST, text, 0x8780)
    scene.question(3.3, OTHER, 2, WWW)
    port = scene.query(3.5, FIRST, WWW)
    upstream = f"10.0.0.53:{port}"
    scene.tcp(3.7, upstream, FIRST, 10, SYN)
    scene.tcp(4.7, FIRST, upstream, 20, SYN | ACK)
    scene.tcp(4.8, upstream, FIRST, 11, ACK, framed(message(77, QUERY, text)))
    scene.reply(13.5, FIRST, port, WWW, answers=[address(300, 192, 0, 2, 80)])
    scene.answer(14, OTHER, 2, WWW, answers=[address(300, 192, 0, 2, 80)])
    scene.tcp(20.7, FIRST, upstream, 21, ACK, framed(message(77, PLAIN, text, [record(b"\xc0\x0c", TXT, 60, hello)])))
    scene.answer(21, ONE, 1, text, answers=[record(b"\xc0\x0c", TXT, 60, hello)])
    return scene.pcap()


def one_identifier():
    """Three questions of a client under one identifier at once, two of them equal but for RD. The answers come in a
    different order."""
    scene, mail = Scene(), asked("mail.example.com")
    scene.question(0, ONE, 7, WWW)
    port = scene.query(0.2, FIRST, WWW)
    scene.udp(1, ONE, FORWARDER, message(7, 0, WWW))
    scene.question(2, ONE, 7, mail)
    mail_port = scene.query(2.2, FIRST, mail)
    scene.reply(8.2, FIRST, mail_port, mail, answers=[address(60, 192, 0, 2, 25)])
    scene.answer(9, ONE, 7, mail, answers=[address(60, 192, 0, 2, 25)])
    scene.reply(10.2, FIRST, port, WWW, answers=[address(300, 192, 0, 2, 80)])
    scene.answer(11, ONE, 7, WWW, 0x8080, answers=[address(300, 192, 0, 2, 80)])
    scene.answer(11.1, ONE, 7, WWW, answers=[address(300, 192, 0, 2, 80)])
    return scene.pcap()


def one_identifier_without_a_question():
    """Two messages of a client under one identifier; both get an answer without a question. The answers come in a
    different order."""
    scene, nothing = Scene(), bytes(8)
    scene.udp(0, ONE, FORWARDER, b"\0\7\x11\0" + nothing)  # operation 2
    scene.udp(0.1, ONE, FORWARDER, b"\0\7\1\0" + nothing)
    scene.udp(0.2, FORWARDER, ONE, b"\0\7\x81\x81" + nothing)
    scene.udp(0.3, FORWARDER, ONE, b"\0\7\x91\x84" + nothing)
    return scene.pcap()


def forged_reply_used():
    """A fault: a reply from another address is answered."""
    scene = Scene()
    scene.question(0, ONE, 1, WWW)
    port = scene.query(0.2, FIRST, WWW)
    scene.reply(2.2, "192.0.2.66:53", port, WWW, answers=[address(300, 203, 0, 113, 66)])
    scene.answer(3, ONE, 1, WWW, answers=[address(300, 203, 0, 113, 66)])
    return scene.pcap()


def taken_late():
    """A client over TCP takes its answers late. The first is of a server, whose reply is cached meanwhile. The second
    is of the cache, and has expired when the client takes it."""
    scene, client = Scene(), "10.0.0.9:50000"
    first = framed(message(1, QUERY, WWW))
    scene.tcp(0, client, FORWARDER, 100, SYN)
    scene.tcp(0.1, FORWARDER, client, 900, SYN | ACK)
    scene.tcp(1, client, FORWARDER, 101, ACK, first)
    scene.replied(1.2, 11.2, FIRST, WWW, answers=[address(4, 192, 0, 2, 80)])
    # Accepted at 11 ms: 4 - 0.489 s are left, and then 4 - 2.089 s.
    scene.told(500, 500.2, OTHER, 2, WWW, answers=[address(3, 192, 0, 2, 80)])
    answer = framed(message(1, REPLY, WWW, [address(4, 192, 0, 2, 80)]))
    scene.tcp(2000, FORWARDER, client, 901, ACK, answer)
    scene.tcp(2100, client, FORWARDER, 101 + len(first), ACK, framed(message(3, QUERY, WWW)))
    second = message(3, REPLY, WWW, [address(1, 192, 0, 2, 80)])
    scene.tcp(6000, FORWARDER, client, 901 + len(answer), ACK, framed(second))
    return scene.pcap()


def forged_expired_data():
    """Two questions get expired data when both tries are over. The second question joined the last try, and gets a
    wrong address: a fault, and no sign of a lost reply."""
    scene, old = Scene(), asked("old.example.com")
    scene.fetched(0, OTHER, 1, old, 1, (192, 0, 2, 79))
    scene.question(3000, ONE, 2, old)
    scene.query(3000.2, FIRST, old)
    scene.query(4001.2, SECOND, old)
    scene.question(4500, OTHER, 3, old)
    scene.answer(5002.2, ONE, 2, old, answers=[address(30, 192, 0, 2, 79)])
    scene.answer(5002.3, OTHER, 3, old, answers=[address(30, 203, 0, 113, 66)])
    return scene.pcap()


def forged_and_not_kept():
    """The answer that leaves when both tries are over lives for long: a fault, and no sign of a lost reply, since the
    name is soon asked again."""
    scene, old = Scene(), asked("old.example.com")
    scene.fetched(0, OTHER, 1, old, 1, (192, 0, 2, 79))
    scene.question(3000, ONE, 2, old)
    scene.query(3000.2, FIRST, old)
    scene.query(4001.2, SECOND, old)
    scene.answer(5002.2, ONE, 2, old, answers=[address(430, 192, 0, 2, 79)])
    scene.fetched(5100, OTHER, 3, old, 60, (192, 0, 2, 79))
    return scene.pcap()
