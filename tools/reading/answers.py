"""What a client is sent."""
from dataclasses import dataclass, replace

from .messages import LONGEST_MESSAGE, Header, Question, Record, write_message

# Why a question is answered as it is: the three in the first line with data, all others without.
ANSWERED, STALE, LOCAL_DENIED = 0, 12, 13
BAD_FORMAT, BAD_OPCODE, NOT_SERVED, NO_ROUTE = 1, 2, 3, 4
QUESTIONS_FULL, INQUIRIES_FULL, NO_PORT, EXHAUSTED, DEADLINE, CHAIN_LONG, TOO_LARGE = range(5, 12)

FORMERR, SERVFAIL, NOTIMP, REFUSED = 1, 2, 4, 5  # RFC 1035 4.1.1
RCODES = {BAD_FORMAT: FORMERR, BAD_OPCODE: NOTIMP, NOT_SERVED: NOTIMP, NO_ROUTE: REFUSED}
LONGEST_OVER_UDP = 512  # RFC 1035 4.2.1
STALE_TTL = 30  # seconds: RFC 8767 4


@dataclass(frozen=True)
class Request:
    """What of a client's message its answer needs. A client is ("udp", peer) or ("tcp", number)."""
    client: tuple
    id: int
    opcode: int
    rd: bool
    question: Question | None


def header_of(request, rcode):
    """The client's identifier, opcode and RD, with QR and RA set and AA clear (RFC 1035 4.1.1)."""
    return Header(request.id, qr=True, opcode=request.opcode, rd=request.rd, ra=True, rcode=rcode)


def failure(request, why):
    """A reply without records: NOTIMP, FORMERR, REFUSED, or otherwise SERVFAIL."""
    header = header_of(request, RCODES.get(why, SERVFAIL))
    return ("reply", *request.client, why, write_message(header, request.question))


def aged(chain, now):
    """Each piece with the seconds that it has left, none if it has ended."""
    return [(entry.piece, entry.ttl(now)) for entry in chain]


def stale(chain, now):
    """Each piece with the seconds left, or thirty after the end (RFC 8767 4)."""
    return [(entry.piece, entry.ttl(now) if entry.is_alive(now) else STALE_TTL) for entry in chain]


def answer(request, chain, rcode, why):
    """A reply with the chain's records: each piece with the TTL of its records.

    Sets are in the answer section, the SOA record of a denial in the authority section (RFC 2308
    2.1, 2.2). If it is too large for UDP, TC is set and the records are left out (RFC 2181 9).
    """
    header = header_of(request, rcode)
    rows = [Record(piece.owner, piece.kind, piece.class_, ttl, data)
            for piece, ttl in chain for data in piece.rows]
    soas = [replace(piece.soa, ttl=ttl) for piece, ttl in chain if piece.soa]
    octets = write_message(header, request.question, rows, soas)
    if request.client[0] == "udp" and len(octets) > LONGEST_OVER_UDP:
        octets = write_message(replace(header, tc=True), request.question)
    if len(octets) > LONGEST_MESSAGE:
        return failure(request, TOO_LARGE)
    return ("reply", *request.client, why, octets)
