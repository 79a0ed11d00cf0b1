"""Messages of the cases, and their comparison."""
import struct

from repository import packing
from repository.packing import CNAME, OF_QUESTION, name, query, record

SERVFAIL, REFUSED = 2, 5
UNKNOWN = 65280
# Data of a large record, made once: a server that makes such data for each reply is too slow on a
# busy machine.
DATA = bytes(range(251)) * 262
question = query  # a client's; `query` in a case is the forwarder's


def reply_to(query, address=b"\xc6\x33\x64\x05", flags=0x8580, seconds=0):
    """An answer, by default for 0 seconds, so that no cache keeps it (RFC 1035 3.2.1)."""
    return packing.reply(query, flags, [packing.address(seconds, *address)])


def kept_reply_to(query):
    """An answer for five minutes."""
    return reply_to(query, seconds=300)


def alias_reply_to(query, target, seconds=300):
    """A reply with an alias alone, and no word on its target."""
    return packing.reply(query, 0x8580, [record(OF_QUESTION, CNAME, seconds, name(target))])


def long_reply_to(query, octets, seconds=0):
    """A reply with a record of the unknown type 65280 (RFC 3597), with `octets` octets of data."""
    return packing.reply(query, 0x8580, [record(OF_QUESTION, UNKNOWN, seconds, DATA[:octets])])


def chain(seconds):
    """The records of eight aliases, each of the next name."""
    names = [name(f"chain{k}.example") for k in range(9)]
    return [record(owner, CNAME, seconds, target) for owner, target in zip(names, names[1:])]


def cut_reply_to(query):
    return packing.reply(query, 0x8780)


def never(query):
    """No reply."""


def head(asked, flags, answers):
    """The header of an answer: the client's identifier, and counts."""
    return asked[:2] + struct.pack(">5H", flags, 1, answers, 0, 0)


def number_of(message):
    """The identifier."""
    return struct.unpack(">H", message[:2])[0]


def shown(value):
    """A value as a fault shows it, a long value by the beginning."""
    text = repr(value)
    return text if len(text) <= 400 else f"{text[:400]}.. ({len(value)} long)"


def expect(met, wanted):
    if met != wanted:
        raise AssertionError(f"{shown(met)} in place of {shown(wanted)}")


def is_answer(message, asked):
    """The client's identifier, flags of an answer, the question as asked, the address."""
    expect(message, head(asked, 0x8180, 1) + reply_to(asked)[12:])


def is_long_answer(message, asked, octets):
    expect(message, head(asked, 0x8180, 1) + long_reply_to(asked, octets)[12:])
