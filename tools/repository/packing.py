"""Messages of the DNS in octets, for all tools and tests (RFC 1035 4.1)."""
import struct

A, NS, CNAME, SOA, MX, TXT, ANY = 1, 2, 5, 6, 15, 16, 255
IN = 1
OF_QUESTION = b"\xc0\x0c"  # a pointer to the name of the question (RFC 1035 4.1.4)


def name(text):
    """The labels of a name, without pointers. A dot at its end makes no difference."""
    labels = [label.encode("latin-1") for label in text.split(".") if label]
    return b"".join(bytes([len(label)]) + label for label in labels) + b"\0"


def name_end(octets, at):
    """The offset after the name at `at`; the message's end if the name is cut off."""
    while at < len(octets) and 0 < octets[at] < 0xC0:
        at += 1 + octets[at]
    return min(at + (1 if at < len(octets) and octets[at] == 0 else 2), len(octets))


def question(owner, kind=A, class_=IN):
    """A question; its name is octets."""
    return owner + struct.pack(">2H", kind, class_)


def record(owner, kind, seconds, data, class_=IN):
    """A record; its owner and its data are octets."""
    return owner + struct.pack(">2HIH", kind, class_, seconds, len(data)) + data


def address(seconds, *numbers, owner=OF_QUESTION):
    """An A record, of the question's name unless another owner is given."""
    return record(owner, A, seconds, bytes(numbers))


def message(identifier, flags, asked, answers=(), authority=()):
    """A message with one question; questions and records are octets."""
    head = struct.pack(">6H", identifier, flags, 1, len(answers), len(authority), 0)
    return head + asked + b"".join(answers) + b"".join(authority)


def query(text="a.example", kind=A, identifier=0x1234):
    """A client's message with one question, recursion desired."""
    return message(identifier, 0x0100, question(name(text), kind))


def reply(query, flags, answers=(), authority=()):
    """A message with the identifier and the question of a query."""
    asked = query[12:name_end(query, 12) + 4]
    return message(struct.unpack(">H", query[:2])[0], flags, asked, answers, authority)


def code(octets):
    """The result code of a message."""
    return octets[3] & 15


def framed(octets):
    """A message with its length before it (RFC 1035 4.2.2)."""
    return struct.pack(">H", len(octets)) + octets


def exactly(stream, count):
    """The next `count` octets of a connection."""
    octets = b""
    while len(octets) < count:
        more = stream.recv(count - len(octets))
        if not more:
            raise EOFError("the connection was closed")
        octets += more
    return octets


def take_frame(stream):
    """The next message of a connection, without its length."""
    return exactly(stream, struct.unpack(">H", exactly(stream, 2))[0])
