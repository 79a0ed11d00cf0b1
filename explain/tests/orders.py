"""Captures whose packets the service read in a different order."""
from making import asked
from office import FIRST, ONE, OTHER, Scene
from repository.packing import CNAME, OF_QUESTION, TXT, A, record


def alias_to(label, seconds, kind, data):
    """An alias of www.example.com to a name of one label more than example.com, and a record of this name. Pointers
    lead to example.com, at octet 16, and to the name, at octet 45."""
    alias = record(OF_QUESTION, CNAME, seconds, bytes([len(label)]) + label + b"\xc0\x10")
    return [alias, record(b"\xc0\x2d", kind, seconds, data)]


def read_in_another_order():
    """Two replies come within 30 microseconds, each with an alias of one name. The second is read and answered first,
    so the first reply's alias is cached."""
    scene, www, text = Scene(), asked("www.example.com"), asked("www.example.com", TXT)
    numbers, hello = alias_to(b"e1", 300, A, bytes((192, 0, 2, 81))), alias_to(b"e2", 300, TXT, b"\x05hello")
    scene.question(0, ONE, 1, www)
    www_port = scene.query(0.2, FIRST, www)
    scene.question(0.5, OTHER, 2, text)
    text_port = scene.query(0.7, FIRST, text)
    scene.reply(10.2, FIRST, www_port, www, answers=numbers)
    scene.reply(10.23, FIRST, text_port, text, answers=hello)
    scene.answer(10.5, OTHER, 2, text, answers=hello)
    scene.answer(10.6, ONE, 1, www, answers=numbers)
    # Both were accepted at 10 ms: 300 - 4.990 s are left.
    scene.told(5000, 5000.2, ONE, 3, www, answers=alias_to(b"e1", 295, A, bytes((192, 0, 2, 81))))
    return scene.pcap()
