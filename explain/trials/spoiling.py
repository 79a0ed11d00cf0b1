"""Faults by chance: a change of an answer by UDP, of any kind."""
import inspect
import random
import sys

import dns.exception
import dns.flags
import dns.message
import dns.rcode
import dns.rrset

SERVICE = "10.0.0.53:53"
FOREIGN = "198.51.100.7"  # the address of no server
LONGEST = 512


def with_data(held, texts):
    return dns.rrset.from_text_list(held.name, held.ttl, "IN", held.rdtype, texts)


# Each changes a message, and may fail, or change nothing, without a fitting part. `others`
# are the further answers of the capture.

def lifetime(message, chance, others):
    held = chance.choice(message.answer + message.authority)
    held.ttl = max(0, held.ttl + chance.choice([3, 10, 100, 5000, -3, -10, -100]))


def data(message, chance, others):
    held = message.answer[-1]
    texts = {"A": FOREIGN, "CNAME": "evil.example.", "NS": "evil.example.", "TXT": '"evil"',
             "MX": "10 evil.example.", "AAAA": "2001:db8::bad"}
    kept = [str(item) for item in held][1:]
    message.answer[-1] = with_data(held, [texts[dns.rdatatype.to_text(held.rdtype)], *kept])


def alias(message, chance, others):
    assert len(message.answer) > 1
    message.answer[0] = with_data(message.answer[0], ["evil.example."])


def set_less(message, chance, others):
    message.answer.pop(chance.choice([0, -1]))


def record_less(message, chance, others):
    held = message.answer[-1]
    message.answer[-1] = with_data(held, [str(item) for item in held][1:])


def without_soa(message, chance, others):
    message.authority.clear()


def other_soa(message, chance, others):
    message.authority[0] = with_data(message.authority[0], ["ns.evil. h.evil. 9 9 9 9 300"])


def code(message, chance, others):
    message.set_rcode(chance.choice([0, 2, 3, 4, 5]))


def failure(message, chance, others):
    message.answer, message.authority = [], []
    message.set_rcode(2)


def denial(message, chance, others):
    message.answer, message.authority = [], []
    message.set_rcode(chance.choice([0, 3]))


def cut(message, chance, others):
    denial(message, chance, others)
    message.flags |= dns.flags.TC


def record_more(message, chance, others):
    section = chance.choice([message.answer, message.authority, message.additional])
    section.append(dns.rrset.from_text("a.evil.", 300, "IN", "A", FOREIGN))


def flags(message, chance, others):
    message.flags ^= chance.choice([dns.flags.AA, dns.flags.RA, dns.flags.RD, dns.flags.AD, 0x40])


def data_of_another(message, chance, others):
    held, given = message.answer[-1], chance.choice(others).answer[-1]
    assert held.rdtype == given.rdtype and not set(held) & set(given)
    message.answer[-1] = with_data(held, [str(item) for item in given])


def answer_of_another(message, chance, others):
    given = chance.choice(others)
    assert given.question != message.question and given.answer
    message.answer, message.authority = given.answer, []
    message.set_rcode(0)


FAULTS = [each for _, each in inspect.getmembers(sys.modules[__name__], inspect.isfunction)
          if [*inspect.signature(each).parameters] == ["message", "chance", "others"]]


def answers(captured):
    """The answers by UDP that can be read: place, client, message."""
    for place, packet in enumerate(captured):
        if packet.is_datagram and packet.ends[0] == SERVICE and packet.message[2] & 0x80:
            try:
                yield place, packet.ends[1], dns.message.from_wire(packet.message)
            except dns.exception.DNSException:
                pass


def spoiled(seed, captured, rows):
    """The name of a fault, the question of the changed answer, and the packets with it; or None."""
    chance, found = random.Random(seed), list(answers(captured))
    by_client = {(row[0], row[2]): row for row in rows}
    for _ in range(100):
        place, client, message = chance.choice(found)
        before, row = message.to_wire(want_shuffle=False), by_client.get((client, message.id))
        fault = chance.choice(FAULTS)
        try:
            fault(message, chance, [other for _, _, other in found if other is not message])
        except (AssertionError, IndexError, KeyError, dns.exception.DNSException):
            continue
        octets = message.to_wire(want_shuffle=False)
        if row and octets != before and len(octets) <= LONGEST:
            changed = captured[place].copy(message=octets)
            return fault.__name__, row, [*captured[:place], changed, *captured[place + 1:]]
    return None
