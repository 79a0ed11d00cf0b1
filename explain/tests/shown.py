"""Captures of restarts, of a clock that was set, of two forwarders on a machine, of a single side of the traffic, of
VLANs, and with packets lost by the capture's own count."""
import lossy
from making import DENIAL, START, asked, octets
from office import ACK, CORPORATE, FIRST, FORWARDER, ONE, OTHER, QUERY, REPLY, RST, SYN, Scene
from repository.packing import CNAME, address, message, name, record

WWW, MAIL, NEW = asked("www.example.com"), asked("mail.example.com"), asked("new.example.com")
ANOTHER = "10.0.0.54:53"  # a second forwarder on the service's machine, with its address for queries


def old_cache_after_a_restart():
    """A fault: nothing listens, and later the answer is of the cache from before."""
    scene = Scene()
    scene.fetched(0, ONE, 1, WWW, 300, (192, 0, 2, 80))
    scene.question(5000, ONE, 2, WWW)
    scene.unreachable(5000.1, "10.0.0.53", ONE, FORWARDER)
    # 300 - 7.990 s would be left.
    scene.told(8000, 8000.2, OTHER, 3, WWW, answers=[address(292, 192, 0, 2, 80)])
    return scene.pcap()


def old_cache_after_resets():
    """A fault: both connections are reset at once, and later the answer is of the cache from before."""
    scene = Scene()
    scene.fetched(0, ONE, 1, WWW, 300, (192, 0, 2, 80))
    for number, client in enumerate(("10.0.0.7:50000", "10.0.0.9:50000")):
        scene.tcp(1000 + number, client, FORWARDER, 100, SYN)
        scene.tcp(1000.1 + number, FORWARDER, client, 900, SYN | ACK)
        scene.tcp(1000.2 + number, client, FORWARDER, 101, ACK)
        scene.tcp(4000 + number, FORWARDER, client, 901, RST | ACK)
    scene.told(8000, 8000.2, OTHER, 3, WWW, answers=[address(292, 192, 0, 2, 80)])
    return scene.pcap()


def old_cache_after_a_told_restart():
    """A fault, if the service was started again at 14:03:06, as --restarted says."""
    scene = Scene()
    scene.fetched(0, ONE, 1, WWW, 300, (192, 0, 2, 80))
    scene.told(5000, 5000.2, OTHER, 2, WWW, answers=[address(295, 192, 0, 2, 80)])
    scene.told(8000, 8000.2, OTHER, 3, WWW, answers=[address(292, 192, 0, 2, 80)])
    return scene.pcap()


def moved(scene, since, by):
    """Has the capture's clock set: packets from a moment on have other times, in the order of before."""
    scene.packets.sort(key=lambda each: each[0])
    first = next(place for place, (moment, _) in enumerate(scene.packets) if moment >= START + 1000 * since)
    scene.packets[first:] = [(moment + 1000 * by, packet) for moment, packet in scene.packets[first:]]
    return scene.pcap_in_order()


def three_cached(scene, since):
    """Three names from the cache, the second and third of them asked for 300 and 310 ms after the first."""
    for number, (at, question, asked_at) in enumerate(((0, WWW, 0), (700, MAIL, 300), (900, NEW, 310))):
        left = 300 - -(-(since + at - asked_at - 10) // 1000)
        scene.question(since + at, OTHER, 20 + number, question)
        scene.answer(since + at + 0.2, OTHER, 20 + number, question, answers=[address(left, 192, 0, 2, 80 + number)])


def fetched_three(scene):
    for number, (at, question) in enumerate(((0, WWW), (300, MAIL), (310, NEW))):
        scene.fetched(at, ONE, 10 + number, question, 300, (192, 0, 2, 80 + number))


def clock_forward_in_quiet():
    """The clock is set forward by an hour while nothing comes: all lifetimes are an hour too long, and expired data
    seem answered."""
    scene = Scene()
    fetched_three(scene)
    three_cached(scene, 5000)
    three_cached(scene, 20000)
    return moved(scene, 10000, 3_600_000)


def clock_back_in_quiet():
    """The clock is set back by ten seconds within twenty without a packet: the packets are in order, and all lifetimes
    are ten seconds too short."""
    scene = Scene()
    fetched_three(scene)
    three_cached(scene, 5000)
    three_cached(scene, 25000)
    return moved(scene, 10000, -10_000)


def clock_back_by_an_hour():
    """The clock is set back by an hour within fifteen seconds without a packet. Only the lifetimes show how long that
    was."""
    scene = Scene()
    fetched_three(scene)
    three_cached(scene, 5000)
    three_cached(scene, 20000)
    scene.fetched(21500, ONE, 30, asked("chat.example.com"), 60, (192, 0, 2, 90))
    return moved(scene, 10000, -3_600_000)


def clock_forward_in_a_query():
    """The clock is set forward by two seconds while a query waits; another question was answered since."""
    scene = Scene()
    fetched_three(scene)
    scene.question(5000, ONE, 15, asked("chat.example.com"))
    port = scene.query(5000.2, FIRST, asked("chat.example.com"))
    scene.told(5008, 5008.2, OTHER, 16, WWW, answers=[address(295, 192, 0, 2, 80)])
    scene.reply(5010.2, FIRST, port, asked("chat.example.com"), answers=[address(60, 192, 0, 2, 90)])
    scene.answer(5011, ONE, 15, asked("chat.example.com"), answers=[address(60, 192, 0, 2, 90)])
    three_cached(scene, 6000)
    return moved(scene, 5005, 2000)


def one_wrong_lifetime():
    """A fault: a lifetime is 40 s too short, and the lifetimes before and after are right."""
    scene = Scene()
    fetched_three(scene)
    three_cached(scene, 5000)
    scene.told(50000, 50000.2, OTHER, 30, WWW, answers=[address(210, 192, 0, 2, 80)])
    three_cached(scene, 51000)
    return scene.pcap()


def two_forwarders():
    """A second forwarder on the machine asks these servers in this form: for a name under way, and for a name that no
    client of the first forwarder wants. Its replies are not in the first cache."""
    scene = Scene()
    scene.question(0, ONE, 1, WWW)
    scene.udp(0.1, OTHER, ANOTHER, message(7, QUERY, WWW))
    port = scene.query(0.2, FIRST, WWW)
    another = scene.query(0.3, FIRST, WWW)
    scene.reply(10.2, FIRST, port, WWW, answers=[address(300, 192, 0, 2, 80)])
    scene.reply(10.3, FIRST, another, WWW, answers=[address(300, 192, 0, 2, 81)])
    scene.answer(11, ONE, 1, WWW, answers=[address(300, 192, 0, 2, 80)])
    scene.udp(11.1, ANOTHER, OTHER, message(7, REPLY, WWW, [address(300, 192, 0, 2, 81)]))
    scene.udp(1000, OTHER, ANOTHER, message(8, QUERY, MAIL))
    scene.replied(1000.2, 1010.2, FIRST, MAIL, answers=[address(60, 192, 0, 2, 25)])
    scene.udp(1011, ANOTHER, OTHER, message(8, REPLY, MAIL, [address(60, 192, 0, 2, 25)]))
    # 300 - 4.990 s are left, of the first reply.
    scene.told(5000, 5000.2, ONE, 2, WWW, answers=[address(295, 192, 0, 2, 80)])
    return scene.pcap()


def clients_alone():
    """The servers' side is not captured: a fault is seen all the same, as a name has two addresses."""
    scene = Scene()
    for at, left, last in ((0, 300, 80), (1000, 299, 80), (2000, 298, 81)):
        scene.told(at, at + 9, ONE, 1 + at // 1000, WWW, answers=[address(left, 192, 0, 2, last)])
    return scene.pcap()


def servers_alone():
    """The clients' side is not captured."""
    scene = Scene()
    scene.replied(0.2, 10.2, FIRST, WWW, answers=[address(300, 192, 0, 2, 80)])
    return scene.pcap()


def with_vlan_tags():
    """Frames with a tag of a VLAN."""
    scene = Scene()
    scene.fetched(0, ONE, 1, WWW, 300, (192, 0, 2, 80))
    scene.packets = [(moment, packet[:12] + b"\x81\0\0\7" + packet[12:]) for moment, packet in scene.packets]
    return scene.pcap()


def counted_loss_of_a_reply():
    """The capture lacks replies, and counts lost packets."""
    scene = Scene()
    scene.question(0, ONE, 1, WWW)
    scene.query(0.2, FIRST, WWW)
    scene.answer(11, ONE, 1, WWW, answers=[address(300, 192, 0, 2, 80)])
    scene.told(5000, 5000.2, ONE, 2, WWW, answers=[address(295, 192, 0, 2, 80)])
    return scene.pcapng() + scene.statistics(0, 4, (1, 0))


def gap_in_a_reply():
    """A reply over TCP lacks a segment: its content is not known, also in the cache."""
    scene = Scene()
    lossy.over_tcp(scene, 0, "a.example.com", [5])  # without the reply's segment
    scene.tcp(7.8, FIRST, "10.0.0.53:6000", 21 + 60, ACK, b"what follows")
    return scene.pcap()


def denied_although_served():
    """A fault: a served name is denied without a reply."""
    scene = Scene()
    scene.fetched(0, ONE, 1, WWW, 300, (192, 0, 2, 80))
    scene.told(10000, 10000.2, ONE, 2, MAIL, 0x8183)
    return scene.pcap()


def records_too_many_and_too_few():
    """Faults: an answer has a record more than its reply, and then a record less."""
    scene = Scene()
    for at, question, told in ((0, WWW, (80, 81, 82)), (1000, MAIL, (80,))):
        scene.question(at, ONE, at, question)
        port = scene.query(at + 0.2, FIRST, question)
        scene.reply(at + 10.2, FIRST, port, question, answers=[address(300, 192, 0, 2, last) for last in (80, 81)])
        scene.answer(at + 11, ONE, at, question, answers=[address(300, 192, 0, 2, last) for last in told])
    return scene.pcap()


def expired_without_a_failure():
    """A fault: expired data are answered, and no try has failed."""
    scene = Scene()
    scene.fetched(0, ONE, 1, WWW, 5, (192, 0, 2, 80))
    scene.told(9000, 9000.2, ONE, 2, WWW, answers=[address(30, 192, 0, 2, 80)])
    return scene.pcap()


def codes_changed():
    """Faults: SERVFAIL in place of a reply's set, and of a cached set; NXDOMAIN in place of a set."""
    scene = Scene()
    scene.fetched(0, ONE, 1, WWW, 300, (192, 0, 2, 80))
    scene.question(1000, ONE, 2, MAIL)
    scene.replied(1000.2, 1010.2, FIRST, MAIL, answers=[address(300, 192, 0, 2, 25)])
    scene.answer(1011, ONE, 2, MAIL, 0x8182)
    scene.told(2000, 2000.2, ONE, 3, WWW, 0x8182)
    scene.told(3000, 3000.2, ONE, 4, WWW, 0x8183, authority=[octets(DENIAL.replace("00000e10", "00000258"))])
    return scene.pcap()


def chain_over_two_routes():
    """An alias of corp.example leads to the root's route, and is asked for there. Alias and target are cached."""
    scene, web = Scene(), asked("web.corp.example")
    alias = record(b"\xc0\x0c", CNAME, 60, name("www.example.com"))
    owner = (0xC000 + 12 + len(web) + 12).to_bytes(2, "big")
    scene.question(0, ONE, 1, web)
    scene.replied(0.2, 10.2, CORPORATE, web, answers=[alias])
    scene.replied(10.4, 20.4, FIRST, WWW, answers=[address(300, 192, 0, 2, 80)])
    # The alias has waited for 10 ms: 59 whole seconds are left.
    left = record(b"\xc0\x0c", CNAME, 59, name("www.example.com"))
    scene.answer(21, ONE, 1, web, answers=[left, address(300, 192, 0, 2, 80, owner=owner)])
    # The alias came at 10 ms, the address at 20 ms: 60 - 4.990 s and 300 - 4.980 s are left.
    scene.question(5000, OTHER, 2, web)
    left = record(b"\xc0\x0c", CNAME, 55, name("www.example.com"))
    scene.answer(5000.2, OTHER, 2, web, answers=[left, address(295, 192, 0, 2, 80, owner=owner)])
    return scene.pcap()
