"""The captures of the tests, as senders, messages and milliseconds. Answers are worked out from the rules, by hand."""
import sys

import chains
import filtered
import hostile
import losses
import lossy
import off
import orders
import outages
import restarts
import shown
import stops
from making import COOKED_2, DENIAL, asked, functions_of, octets
from office import ACK, CORPORATE, FIN, FIRST, FORWARDER, ONE, OTHER, PLAIN, QUERY, REPLY, RST, SECOND, SYN, Scene
from repository.packing import ANY, CNAME, MX, TXT, address, framed, message, name, record


def answers():
    """Cached answers and denials, a joined query, aliases, a denial by the configuration, a type that is not served."""
    scene = Scene()
    www = asked("www.example.com")
    scene.question(0, ONE, 1, www)
    scene.replied(0.5, 12.5, FIRST, www, answers=[address(300, 192, 0, 2, 80)])
    scene.answer(13, ONE, 1, www, answers=[address(300, 192, 0, 2, 80)])
    # Accepted at 12 ms; at 2500 ms there are 300 - 2.488 s left, so 297 whole seconds.
    scene.told(2500, 2500.3, OTHER, 2, www, answers=[address(297, 192, 0, 2, 80)])
    # A denial lives as long as the SOA's MINIMUM. A second later there are 599 whole seconds, also
    # for names below.
    gone, below = asked("gone.example.com"), asked("x.gone.example.com", MX)
    scene.question(3000, ONE, 3, gone)
    scene.replied(3000.4, 3007.4, FIRST, gone, 0x8583, authority=[octets(DENIAL)])
    scene.answer(3008, ONE, 3, gone, 0x8183, authority=[octets(DENIAL.replace("00000e10", "00000258"))])
    scene.told(4000, 4000.2, ONE, 4, below, 0x8183, authority=[octets(DENIAL.replace("00000e10", "00000257"))])
    # The alias leads to the other route, where the name is held: at 5020 ms there are 300 - 5.008 s
    # left of it.
    web = asked("web.corp.example")
    alias = record(b"\xc0\x0c", CNAME, 60, name("www.example.com"))
    scene.question(5000, ONE, 5, web)
    scene.replied(5000.3, 5020.3, CORPORATE, web, answers=[alias])
    owner = (0xC000 + 12 + len(web) + 12).to_bytes(2, "big")
    scene.answer(5021, ONE, 5, web, answers=[alias, address(294, 192, 0, 2, 80, owner=owner)])
    # The configuration denies lan; type ANY is not served.
    scene.told(6000, 6000.1, ONE, 6, asked("printer.lan"), 0x8183)
    scene.told(6100, 6100.1, ONE, 7, asked("www.example.com", ANY), 0x8184)
    # The second asks 4 ms after the first, in other letters, and gets the same reply.
    upper = asked("NEW.example.com")
    scene.question(7000, ONE, 8, asked("new.example.com"))
    port = scene.query(7000.2, FIRST, asked("new.example.com"))
    scene.question(7004, OTHER, 9, upper)
    scene.reply(7030.2, FIRST, port, asked("new.example.com"), answers=[address(60, 192, 0, 2, 81)])
    scene.answer(7031, ONE, 8, asked("new.example.com"), answers=[address(60, 192, 0, 2, 81)])
    # The owner in small letters is no place of the question, but example.com in it is, at 12 + 4.
    owner = b"\x03new\xc0\x10"
    scene.answer(7031.1, OTHER, 9, upper, answers=[address(60, 192, 0, 2, 81, owner=owner)])
    return scene.pcap()


def failures():
    """Servers that are silent, refuse, have no open port; expired data; a try that never left; the
    deadline."""
    scene = Scene()
    www = asked("www.example.com")
    scene.fetched(0, ONE, 1, www, 5, (192, 0, 2, 80))
    # Silent for 1000 ms, then REFUSED: data that expired 4 s ago are answered with 30 s, since stale_s is 60.
    scene.question(9000, ONE, 2, www)
    scene.query(9000.4, FIRST, www)
    port = scene.query(10001.2, SECOND, www)
    scene.reply(10004.2, SECOND, port, www, 0x8185)
    scene.answer(10005, ONE, 2, www, answers=[address(30, 192, 0, 2, 80)])
    # The first server was preferred, so it is asked first. Its port is closed, and the second gives
    # a referral.
    other = asked("other.example.com")
    scene.question(20000, ONE, 3, other)
    port = scene.query(20000.2, FIRST, other)
    scene.unreachable(20000.6, "192.0.2.1", f"10.0.0.53:{port}", FIRST)
    port = scene.query(20001, SECOND, other)
    scene.reply(
        20006, SECOND, port, other, 0x8180, authority=[record(name("example.com"), 2, 60, name("ns.example.com"))]
    )
    scene.answer(20006.5, ONE, 3, other, 0x8182)
    # The only server of corp.example can't be reached from this machine: no query ever leaves.
    lost = asked("lost.corp.example")
    scene.told(30000, 30000.4, ONE, 4, lost, 0x8182)
    # A reply that can't be read after the question, then a cut reply, with no try left.
    odd = asked("odd.example.com")
    scene.question(40000, ONE, 5, odd)
    scene.replied(40000.3, 40002.3, FIRST, odd, answers=[b"\xc0\x0c\0\1"])
    scene.replied(40002.8, 40005.8, SECOND, odd, 0x8780)
    scene.answer(40006.2, ONE, 5, odd, 0x8182)
    # Nothing answers at all.
    scene.question(50000, OTHER, 6, odd)
    scene.query(50000.3, FIRST, odd)
    scene.query(51001.3, SECOND, odd)
    scene.answer(52002.4, OTHER, 6, odd, 0x8182)
    return scene.pcap()


def connections():
    """Over TCP: two questions in pieces out of order, a cut reply, a refused connection."""
    scene = Scene(COOKED_2)
    www, text = asked("www.example.com"), asked("text.example.com", TXT)
    scene.fetched(0, ONE, 1, www, 300, (192, 0, 2, 80))
    # Questions 2 and 3 on one connection: its second half arrives first. At 1003 ms there are 300 -
    # 0.993 s left.
    stream = framed(message(2, QUERY, www)) + framed(message(3, QUERY, text))
    client = "10.0.0.9:50000"
    scene.tcp(1000, client, FORWARDER, 100, SYN)
    scene.tcp(1000.1, FORWARDER, client, 900, SYN | ACK)
    scene.tcp(1002, client, FORWARDER, 121, ACK, stream[20:])
    scene.tcp(1003, client, FORWARDER, 101, ACK, stream[:20])
    first = framed(message(2, REPLY, www, [address(299, 192, 0, 2, 80)]))
    scene.tcp(1003.2, FORWARDER, client, 901, ACK, first)
    # The reply by UDP is cut, so this server is asked over TCP.
    scene.replied(1003.4, 1006.4, FIRST, text, 0x8780)
    upstream, data = "10.0.0.53:6000", b"\x0bhello world"
    scene.tcp(1006.9, upstream, FIRST, 10, SYN)
    scene.tcp(1008, FIRST, upstream, 20, SYN | ACK)
    scene.tcp(1008.1, upstream, FIRST, 11, ACK, framed(message(77, QUERY, text)))
    scene.tcp(1010.9, FIRST, upstream, 21, ACK, framed(message(77, PLAIN, text, [record(b"\xc0\x0c", TXT, 60, data)])))
    second = framed(message(3, REPLY, text, [record(b"\xc0\x0c", TXT, 60, data)]))
    scene.tcp(1012, FORWARDER, client, 901 + len(first), ACK, second)
    scene.tcp(1013, client, FORWARDER, 101 + len(stream), FIN | ACK)
    scene.tcp(1013.1, FORWARDER, client, 901 + len(first) + len(second), FIN | ACK)
    # Here the connection is refused, and no try is left.
    more = asked("more.example.com", TXT)
    scene.question(5000, ONE, 4, more)
    scene.replied(5000.2, 5003.2, FIRST, more, 0x8780)
    scene.tcp(5003.7, "10.0.0.53:6001", FIRST, 10, SYN)
    scene.tcp(5004.2, FIRST, "10.0.0.53:6001", 0, RST | ACK)
    scene.answer(5004.9, ONE, 4, more, 0x8182)
    # tcpdump -i any may have a packet twice.
    scene.packets += [(moment + 3, packet) for moment, packet in scene.packets[:4]]
    return scene.pcapng()


def kept_before():
    """The capture begins later than the service: older data are open."""
    scene = Scene()
    old, gone = asked("old.example.com"), asked("gone.example.com")
    scene.told(0, 0.2, ONE, 1, old, answers=[address(20, 192, 0, 2, 90)])
    scene.told(5000, 5000.2, OTHER, 2, old, answers=[address(15, 192, 0, 2, 90)])
    scene.told(6000, 6000.2, OTHER, 3, gone, 0x8183, authority=[octets(DENIAL.replace("00000e10", "00000030"))])
    scene.fetched(30000, ONE, 4, old, 60, (192, 0, 2, 91))
    scene.told(31000, 31000.2, ONE, 5, old, answers=[address(59, 192, 0, 2, 91)])
    return scene.pcap()


def kept_before_ends():
    """Data from before the capture expired in the second that their last answer left open, and are asked for again
    early in this second."""
    scene, www = Scene(), asked("www.example.com")
    scene.told(0, 0.2, ONE, 1, www, answers=[address(3, 192, 0, 2, 80)])
    scene.fetched(3100, ONE, 2, www, 60, (192, 0, 2, 80))
    # Accepted at 3110 ms: 60 - 1.890 s are left.
    scene.told(5000, 5000.2, OTHER, 3, www, answers=[address(58, 192, 0, 2, 80)])
    return scene.pcap()


def expired_before():
    """The capture begins when both servers are silent: expired data without a reply in the capture are answered twice.
    A fault: the third answer has another address. A second name was answered alive, and then expired."""
    scene, old, new = Scene(), asked("old.example.com"), asked("new.example.com")
    scene.told(5000, 5000.2, OTHER, 8, new, answers=[address(5, 192, 0, 2, 81)])
    scene.question(15000, OTHER, 9, new)
    scene.query(15000.2, FIRST, new)
    scene.query(16001.2, SECOND, new)
    scene.answer(17002.2, OTHER, 9, new, answers=[address(30, 192, 0, 2, 81)])
    for place, last in enumerate((70, 70, 71)):
        at = 10000 * place
        scene.question(at, ONE, 1 + place, old)
        scene.query(at + 0.2, FIRST, old)
        scene.query(at + 1001.2, SECOND, old)
        scene.answer(at + 2002.2, ONE, 1 + place, old, answers=[address(30, 192, 0, 2, last)])
    return scene.pcap()


def kept_before_differs():
    """A fault: data from before the capture have another address five seconds later."""
    scene = Scene()
    old = asked("old.example.com")
    scene.told(0, 0.2, ONE, 1, old, answers=[address(20, 192, 0, 2, 90)])
    scene.told(5000, 5000.2, OTHER, 2, old, answers=[address(15, 192, 0, 2, 91)])
    return scene.pcap()


def two_seconds_more():
    """A fault: a lifetime of two seconds too many. A second too many is no fault."""
    scene = Scene()
    www = asked("www.example.com")
    scene.fetched(0, ONE, 1, www, 60, (192, 0, 2, 80))
    # 60 - 4.990 s are left, and then 60 - 5.990 s.
    scene.told(5000, 5000.2, ONE, 2, www, answers=[address(57, 192, 0, 2, 80)])
    scene.told(6000, 6000.2, ONE, 3, www, answers=[address(55, 192, 0, 2, 80)])
    return scene.pcap()


def two_seconds_less():
    """A fault: a lifetime of two seconds too few. A second too few is no fault."""
    scene = Scene()
    www = asked("www.example.com")
    scene.fetched(0, ONE, 1, www, 300, (192, 0, 2, 80))
    # Accepted at 10 ms: 300 - 4.990 s are left, and then 300 - 5.990 s.
    for at, number, left in ((5000, 2, 294), (6000, 3, 292)):
        scene.told(at, at + 0.2, OTHER, number, www, answers=[address(left, 192, 0, 2, 80)])
    return scene.pcap()


def without_resolution():
    """A pcapng whose interface does not say its unit of time: microseconds."""
    scene = Scene()
    scene.fetched(0, ONE, 1, asked("www.example.com"), 60, (192, 0, 2, 80))
    return scene.pcapng(b"", 1)


def repeated():
    """With tcpdump -i any a packet that comes again after 20 ms is a new question."""
    scene = Scene(COOKED_2)
    www = asked("www.example.com")
    scene.fetched(0, ONE, 1, www, 300, (192, 0, 2, 80))
    moment, packet = scene.packets[0]
    scene.packets.append((moment + 20_000, packet))
    # 300 - 0.010 s are left.
    scene.answer(20.2, ONE, 1, www, answers=[address(299, 192, 0, 2, 80)])
    return scene.pcap()


def past_its_end():
    """A fault: a set that expired at 5010 ms is answered at 6500 ms, with no second left, and nobody is asked."""
    scene = Scene()
    www = asked("www.example.com")
    scene.fetched(0, ONE, 1, www, 5, (192, 0, 2, 80))
    scene.told(6500, 6500.2, ONE, 2, www, answers=[address(0, 192, 0, 2, 80)])
    return scene.pcap()


def another_route():
    """A fault: a name of corp.example is asked of a server of the root's route, and the reply is answered."""
    scene = Scene()
    scene.fetched(0, ONE, 1, asked("db.corp.example"), 60, (203, 0, 113, 1), FIRST)
    return scene.pcap()


def forgotten_alias():
    """A fault: the alias is not in the answer."""
    scene = Scene()
    web = asked("web.example.com")
    alias = record(b"\xc0\x0c", CNAME, 60, b"\x03www\xc0\x10")
    target = address(60, 192, 0, 2, 80, owner=b"\xc0\x2d")
    scene.question(0, ONE, 1, web)
    scene.replied(0.2, 9.2, FIRST, web, answers=[alias, target])
    scene.answer(10, ONE, 1, web, answers=[address(60, 192, 0, 2, 80, owner=b"\x03www\xc0\x10")])
    return scene.pcap()


def joined_unequal():
    """A fault: a question for MX records gets the reply for A records."""
    scene = Scene()
    www, mail = asked("www.example.com"), asked("www.example.com", MX)
    scene.question(0, ONE, 1, www)
    port = scene.query(0.2, FIRST, www)
    scene.question(2, OTHER, 2, mail)
    scene.reply(9.2, FIRST, port, www, answers=[address(60, 192, 0, 2, 80)])
    scene.answer(10, ONE, 1, www, answers=[address(60, 192, 0, 2, 80)])
    scene.answer(10.1, OTHER, 2, mail, answers=[address(60, 192, 0, 2, 80)])
    return scene.pcap()


def gaps():
    """Streams and fragments with parts missing, a packet cut short, and the end of the file in
    another."""
    scene = Scene()
    www = asked("www.example.com")
    scene.fetched(0, ONE, 1, www, 300, (192, 0, 2, 80))
    client, stream = "10.0.0.9:50000", framed(message(2, QUERY, www))
    scene.tcp(500, client, FORWARDER, 100, SYN)
    scene.tcp(501, client, FORWARDER, 101 + len(stream), ACK, stream)
    scene.ip(600, bytes((192, 0, 2, 1)), bytes((10, 0, 0, 53)), 17, bytes(16), fragment=0x2000)
    scene.question(700, ONE, 3, www)
    scene.question(650, ONE, 4, www)
    moment, packet = scene.packets.pop()
    scene.packets.append((moment, packet[:50]))
    capture = scene.pcap()
    return capture[:-10]


OTHERS = chains, restarts, outages, stops, hostile, losses, lossy, orders, off, filtered, shown
ALL = [scene for module in (sys.modules[__name__], *OTHERS) for scene in functions_of(module)]
