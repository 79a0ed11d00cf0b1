"""Captures that lack a packet, and captures whose clock is set."""
from making import asked
from office import FIRST, ONE, OTHER, Scene
from repository.packing import address


def lost():
    """A query, a reply and a question are missing, each of another name."""
    scene, name = Scene(), asked("a.example.com")
    scene.question(0, ONE, 1, name)
    scene.reply(10.2, FIRST, 6001, name, answers=[address(60, 192, 0, 2, 81)])
    scene.answer(11, ONE, 1, name, answers=[address(60, 192, 0, 2, 81)])
    name = asked("b.example.com")
    scene.question(1000, ONE, 2, name)
    scene.query(1000.2, FIRST, name)
    scene.answer(1011, ONE, 2, name, answers=[address(60, 192, 0, 2, 82)])
    # Accepted at 1010 ms at the earliest: 60 - 0.990 s are left.
    scene.told(2000, 2000.2, OTHER, 3, name, answers=[address(59, 192, 0, 2, 82)])
    name = asked("c.example.com")
    scene.replied(3000.2, 3010.2, FIRST, name, answers=[address(60, 192, 0, 2, 83)])
    # 60 - 1.990 s are left.
    scene.told(5000, 5000.2, ONE, 4, name, answers=[address(58, 192, 0, 2, 83)])
    return scene.pcap()


def another_program():
    """Another program asks a server in the form of the forwarder; the forwarder asks for this name, too."""
    scene, name = Scene(), asked("www.example.com")
    scene.fetched(0, ONE, 1, asked("new.example.com"), 60, (192, 0, 2, 81))
    scene.replied(1000, 1010, FIRST, name, answers=[address(300, 192, 0, 2, 80)])
    scene.fetched(2000, ONE, 2, name, 300, (192, 0, 2, 80))
    return scene.pcap()


def clock_set_back():
    """The clock is set back by an hour while a reply is awaited; cached data live on as before.
    """
    scene, name = Scene(), asked("www.example.com")
    scene.fetched(0, ONE, 1, asked("new.example.com"), 60, (192, 0, 2, 81))
    scene.question(1000, ONE, 2, name)
    port = scene.query(1000.2, FIRST, name)
    before = scene.pcap()
    scene = Scene()
    scene.reply(1000, FIRST, port, name, answers=[address(300, 192, 0, 2, 80)])
    scene.answer(1001, ONE, 2, name, answers=[address(300, 192, 0, 2, 80)])
    # 60 - 0.990 s were left when the clock was set, and two more seconds have passed.
    scene.told(3000, 3000.2, OTHER, 3, asked("new.example.com"), answers=[address(57, 192, 0, 2, 81)])
    scene.packets = [(moment - 3_600_000_000, packet) for moment, packet in scene.packets]
    return before + scene.pcap()[24:]


def clock_set_forward():
    """The clock is set forward by half a minute while a reply is awaited; cached data live on as before."""
    scene, name = Scene(), asked("www.example.com")
    scene.fetched(0, ONE, 1, asked("new.example.com"), 60, (192, 0, 2, 81))
    scene.question(1000, ONE, 2, name)
    scene.replied(1000.2, 31010.2, FIRST, name, answers=[address(300, 192, 0, 2, 80)])
    scene.answer(31011.2, ONE, 2, name, answers=[address(300, 192, 0, 2, 80)])
    # 60 - 2.990 s are left.
    scene.told(33000.2, 33000.4, OTHER, 3, asked("new.example.com"), answers=[address(57, 192, 0, 2, 81)])
    return scene.pcap()


def counted_losses():
    """The capture says, in the middle and at its end, how many packets it lost: both the interface and the system
    dropped some."""
    scene = Scene()
    scene.fetched(0, ONE, 1, asked("www.example.com"), 60, (192, 0, 2, 80))
    return scene.pcapng() + scene.statistics(0, 4, (2, 0)) + scene.statistics(0, 9, (1203, 40))


def short_replies():
    """The question of a query is missing. Before its reply come some of 2 to 11 octets."""
    scene, name = Scene(), asked("www.example.com")
    port = scene.query(0.2, FIRST, name)
    for count in range(2, 12):
        scene.udp(5.2 + count / 100, FIRST, f"10.0.0.53:{port}", (port.to_bytes(2, "big") + bytes(9))[:count])
    scene.reply(10.2, FIRST, port, name, answers=[address(60, 192, 0, 2, 80)])
    # Accepted at 10 ms: 60 - 1.990 s are left.
    scene.told(2000, 2000.2, ONE, 1, name, answers=[address(58, 192, 0, 2, 80)])
    return scene.pcap()
