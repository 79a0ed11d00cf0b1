"""Captures of servers whose machine is off. Such a machine answers no ARP, so no packet leaves for it. After three
seconds the system of the service says by ICMP that the machine can't be reached, unseen by the service."""
from making import asked
from office import CORPORATE, FIRST, ONE, OTHER, QUERY, SECOND, Scene
from repository.packing import address, message

OWN = "10.0.0.53"


def unreached(scene, at, server, names, first=7001):
    """ICMP's news of a query for each name, 3,060 ms after the first."""
    for port, name in enumerate(names, first):
        query = message(port, QUERY, name)
        scene.unreachable(at + 3060 + port / 1000, OWN, f"{OWN}:{port}", server, 1, query)


def the_first_server_is_off():
    """Each question waits for the first server, then the second server is asked. After a reply the second server is
    preferred. In between further questions are answered."""
    scene, names = Scene(), [asked(f"n{number}.example.com") for number in range(4)]
    for number, name in enumerate(names):
        scene.question(300 * number, ONE, number, name)
        port = scene.query(300 * number + 1001.2, SECOND, name)
        scene.reply(300 * number + 1011.2, SECOND, port, name, answers=[address(300, 192, 0, 2, number)])
        scene.answer(300 * number + 1012, ONE, number, name, answers=[address(300, 192, 0, 2, number)])
    unreached(scene, 0, FIRST, names)
    scene.fetched(5000, OTHER, 9, asked("new.example.com"), 60, (192, 0, 2, 81), SECOND)
    return scene.pcap()


def no_packet_and_no_news():
    """As before, and the capture has no ICMP. The second question gets an address from no reply: a fault."""
    scene, one, other = Scene(), asked("one.example.com"), asked("other.example.com")
    for number, name, last in ((0, one, 80), (1, other, 66)):
        scene.question(300 * number, ONE, number, name)
        scene.replied(300 * number + 1001.2, 300 * number + 1011.2, SECOND, name, answers=[address(300, 192, 0, 2, 80)])
        scene.answer(300 * number + 1012, ONE, number, name, answers=[address(300, 192, 0, 2, last)])
    return scene.pcap()


def the_only_server_is_off():
    """Questions for several names fail, each when two tries are over. Meanwhile further questions are answered."""
    scene, names = Scene(), [asked(f"h{number}.corp.example") for number in range(4)]
    for number, name in enumerate(names):
        at = 1055 * number
        scene.question(at, ONE, number, name)
        scene.fetched(at + 400, OTHER, number, asked(f"n{number}.example.com"), 60, (192, 0, 2, number))
        scene.answer(at + 2004, ONE, number, name, 0x8182)
        unreached(scene, at, CORPORATE, [name, name], 7001 + 2 * number)
    return scene.pcap()


def joined_for_a_server_that_is_off():
    """A question joins a query to a server that is off, once until the tries end, and once until the next server
    replies."""
    scene, name, www = Scene(), asked("h.corp.example"), asked("www.example.com")
    scene.question(0, ONE, 1, name)
    scene.question(1500, OTHER, 2, name)
    scene.answer(2002.2, ONE, 1, name, 0x8182)
    scene.answer(2002.3, OTHER, 2, name, 0x8182)
    scene.question(5000, ONE, 3, www)
    scene.question(5600, OTHER, 4, www)
    scene.replied(6001.2, 6011.2, SECOND, www, answers=[address(60, 192, 0, 2, 80)])
    for at, client, number in ((6012, ONE, 3), (6012.1, OTHER, 4)):
        scene.answer(at, client, number, www, answers=[address(60, 192, 0, 2, 80)])
    return scene.pcap()
