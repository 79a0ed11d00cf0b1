"""Captures of a service that stands still several times."""
from making import asked
from office import FIRST, ONE, OTHER, SECOND, Scene
from repository.packing import address

WWW, NEW = asked("www.example.com"), asked("new.example.com")
FOUND, OTHERS = [address(60, 192, 0, 2, 80)], [address(60, 192, 0, 2, 81)]


def past_its_end_after_the_next_stop():
    """A fault: a cached set has expired when its question is read, since an answer leaves before."""
    scene, old = Scene(), asked("old.example.com")
    scene.fetched(0, OTHER, 1, old, 2, (192, 0, 2, 79))
    scene.question(600, ONE, 2, WWW)
    scene.question(700, OTHER, 3, old)
    scene.replied(1500.2, 1510.2, FIRST, WWW, answers=FOUND)
    scene.answer(2300.2, ONE, 2, WWW, answers=FOUND)
    scene.answer(2300.3, OTHER, 3, old, answers=[address(0, 192, 0, 2, 79)])
    return scene.pcap()


def failed_before_its_reply():
    """Of two replies the service reads the second first, after a stop. Then the deadline of a question is over, and its
    reply is read, for a second question."""
    scene = Scene()
    scene.question(0, ONE, 1, WWW)
    scene.query(0.2, FIRST, WWW)
    scene.question(600, OTHER, 2, WWW)
    scene.question(700, OTHER, 3, NEW)
    www = scene.query(2500.2, SECOND, WWW)
    new = scene.query(2500.3, FIRST, NEW)
    scene.reply(2510.2, SECOND, www, WWW, answers=FOUND)
    scene.reply(2520.3, FIRST, new, NEW, answers=OTHERS)
    scene.answer(3200.2, OTHER, 3, NEW, answers=OTHERS)
    scene.answer(3200.3, ONE, 1, WWW, 0x8182)
    scene.answer(3200.4, OTHER, 2, WWW, answers=FOUND)
    return scene.pcap()


def lifetimes_of_no_moment():
    """Faults: of three questions that came while the service stood still two get lifetimes of no moment of the stop,
    too short and too long."""
    scene, old = Scene(), asked("old.example.com")
    scene.fetched(0, OTHER, 1, old, 60, (192, 0, 2, 79))
    # Accepted at 10 ms: 60 - 1.190 s are left when the first question comes, and 60 - 2.590 s when answers leave.
    for number, left in ((2, 61), (3, 58), (4, 55)):
        scene.told(1198 + number, 2600 + number / 10, ONE, number, old, answers=[address(left, 192, 0, 2, 79)])
    return scene.pcap()


def clock_read_before_the_stop():
    """The service reads its clock, stands still, and then takes a late reply: by the clock as read, the reply is in
    time."""
    scene = Scene()
    scene.question(0, ONE, 1, WWW)
    scene.replied(0.2, 1300.2, FIRST, WWW, answers=FOUND)
    scene.answer(2500.2, ONE, 1, WWW, answers=FOUND)
    # Accepted by 1,000 ms: 60 - 2.1 s are left, or less.
    scene.told(3100, 3100.2, OTHER, 2, WWW, answers=[address(57, 192, 0, 2, 80)])
    return scene.pcap()


def too_late_without_a_stop():
    """A fault: a late reply is used. A further answer shows that the service did not stand still."""
    scene = Scene()
    scene.fetched(0, OTHER, 1, NEW, 60, (192, 0, 2, 81))
    scene.question(20, ONE, 2, WWW)
    port = scene.query(20.2, FIRST, WWW)
    for number in range(13):
        # Accepted at 10 ms: 60 - 0.040 s are left at 50 ms.
        at = 50 + 100 * number
        scene.told(at, at + 0.2, OTHER, 3 + number, NEW, answers=[address(59 - (at - 10) // 1000, 192, 0, 2, 81)])
    scene.reply(1320.2, FIRST, port, WWW, answers=FOUND)
    scene.answer(1321, ONE, 2, WWW, answers=FOUND)
    return scene.pcap()


def forged_in_a_stop():
    """Faults: of two questions that came while the service stood still the first gets an address from no reply, and the
    second fails despite a reply in time."""
    scene = Scene()
    scene.question(0, ONE, 1, WWW)
    scene.replied(0.2, 10.2, FIRST, WWW, answers=FOUND)
    scene.answer(11, ONE, 1, WWW, answers=FOUND)
    scene.question(400, OTHER, 2, WWW)
    scene.question(500, OTHER, 3, NEW)
    scene.question(600, ONE, 4, WWW)
    scene.answer(1900.2, OTHER, 2, WWW, answers=[address(58, 203, 0, 113, 66)])
    port = scene.query(1900.3, FIRST, NEW)
    scene.answer(1900.4, ONE, 4, WWW, 0x8182)
    scene.reply(1910.3, FIRST, port, NEW, answers=OTHERS)
    scene.answer(1911, OTHER, 3, NEW, answers=OTHERS)
    return scene.pcap()


def failed_without_a_try():
    """A fault: a question that came while the service stood still fails, and nothing was asked for it since its data
    expired."""
    scene, old = Scene(), asked("old.example.com")
    scene.fetched(0, OTHER, 1, old, 2, (192, 0, 2, 79))
    scene.question(3000, ONE, 2, WWW)
    scene.question(3100, OTHER, 3, old)
    port = scene.query(6600.2, FIRST, WWW)
    scene.answer(6600.3, OTHER, 3, old, 0x8182)
    scene.reply(6610.2, FIRST, port, WWW, answers=FOUND)
    scene.answer(6611, ONE, 2, WWW, answers=FOUND)
    return scene.pcap()
