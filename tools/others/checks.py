"""What is checked of the forwarder between an asker and a name server. Each check returns None, or
the fault."""
import os
import socket
import struct
import time

from others import askers, zone
from repository.packing import framed, query, take_frame
from running.programs import path


class Place:
    """A freshly started forwarder, by its port, and the name server to be asked."""

    def __init__(self, forwarder, server):
        self.forwarder, self.server = forwarder, server
        self.began = time.monotonic()

    def has_lifetime(self, seconds):
        """No record is older than the forwarder, or from the future."""
        return 0 <= zone.LIFETIME - seconds <= time.monotonic() - self.began + 1


def followed(asker, port, name, kind, tcp):
    """A server's reply for a name and, if that ends with an alias, for the target of the alias."""
    reply = asker.ask(port, name, kind, tcp)
    for _ in range(8):
        aliases = {owner: data for owner, _, of, data in reply.records if of == "CNAME"}
        end = name.lower().rstrip(".") + "."
        while end in aliases:
            end = aliases[end].lower()
        is_answered = any(owner == end for owner, *_ in reply.records)
        if kind == "CNAME" or not aliases or is_answered or reply.code != "NOERROR":
            return reply
        more = asker.ask(port, end.rstrip("."), kind, tcp)
        reply.code, reply.records = more.code, sorted(reply.records + more.records)
        if not more.records:
            return reply
    return reply


def compared(asker, place, name, kind, tcp=False, code=None):
    """The forwarder's answer has the server's records, and none is older than the forwarder."""
    wanted = followed(asker, place.server.port, name, kind, tcp)
    met = asker.ask(place.forwarder, name, kind, tcp)
    said = f"{name} {kind}: {met}"
    if code is not None and met.code != code:
        return f"{said} in place of {code}"
    if met.code != wanted.code or met.without_seconds() != wanted.without_seconds():
        return f"{said} in place of {wanted}"
    if not all(place.has_lifetime(seconds) for _, seconds, _, _ in met.records):
        return f"{said} has other lifetimes than {zone.LIFETIME} s and what has passed of it"
    return None


def first_fault(faults):
    return next((fault for fault in faults if fault is not None), None)


def all_types(asker, place, tcp):
    """Each type that the server holds, asked of the server or from the cache."""
    kinds = [kind for kind in zone.TYPES if kind not in place.server.without]
    return first_fault(
        compared(asker, place, f"type-{kind.lower()}.example", kind, tcp, "NOERROR")
        for kind in kinds)


def denials(asker, place):
    """A missing name, a name below, and a name without the type."""
    rows = [("gone.example", "A", False), ("below.gone.example", "MX", False),
            ("gone.example", "A", True)]
    faults = (compared(asker, place, *row, "NXDOMAIN") for row in rows)
    return first_fault(faults) or compared(asker, place, "www.example", "MX", code="NOERROR")


def aliases(asker, place):
    """Aliases of the route, across routes and back, and eight of them; nine fail."""
    names = ["one.example", "across.example", "there-and-back.example", "alias2.example"]
    fault = first_fault(compared(asker, place, name, "A", tcp, "NOERROR")
                        for name in names for tcp in (False, True))
    met = asker.ask(place.forwarder, "alias1.example", "A")
    if not fault and (met.code, met.records) != ("SERVFAIL", []):
        fault = f"alias1.example A: {met} in place of SERVFAIL"
    return fault


def large_text(asker, place):
    """A text of 4 KiB, for which the client and the forwarder go from UDP to TCP."""
    return compared(asker, place, "big.example", "TXT", code="NOERROR")


def cut_over_udp(place):
    """dig without a further query over TCP sees the question with TC."""
    lines = askers.Dig().lines(place.forwarder, "big.example", "TXT", "+ignore", "+notcp")
    flags = [line for line in lines if line.startswith(";; flags:")]
    if not flags or " tc " not in flags[0].replace(";", " ;") or "ANSWER: 0" not in flags[0]:
        return f"no cut answer: {flags}"
    return None


def letter_case(place):
    """The question comes back in the client's spelling, from the cache too."""
    for name in ("wWw.ExAmPlE.", "www.EXAMPLE.", "wriTTEN.example."):
        lines = askers.Dig().lines(place.forwarder, name, "A")
        if not any(line.split()[:1] == [";" + name] for line in lines):
            return f"{name} is not in {lines}"
    return None


def not_served(place):
    """ANY and a zone transfer are not implemented, a name without route is refused."""
    for name, kind, code in (("www.example", "ANY", "NOTIMP"), ("www.other", "A", "REFUSED")):
        met = askers.Dig().ask(place.forwarder, name, kind)
        if met.code != code:
            return f"{name} {kind}: {met} in place of {code}"
    printed = askers.said("dig", "@127.0.0.1", "-p", place.forwarder, "+tries=1", "example", "AXFR")
    return None if "Transfer failed" in printed else f"a zone transfer: {printed}"


def stopped_and_started(place):
    """Without a server cached names are answered alone; with the server again all names are."""
    ask = askers.Dig().ask
    ask(place.forwarder, "n1.example", "A")
    place.server.stop()
    codes = [ask(place.forwarder, name, "A").code for name in ("n1.example", "fresh.www.example")]
    place.server.start()
    codes += [ask(place.forwarder, name, "AAAA").code for name in ("n1.example", "n2.example")]
    return None if codes == ["NOERROR", "SERVFAIL", "NOERROR", "NOERROR"] else f"{codes}"


BY_DIG = (cut_over_udp, letter_case, not_served, stopped_and_started)


def pipelined(place):
    """A hundred questions in a piece, over a connection; the answers come in any order."""
    asked = [query(f"n{n}.example", identifier=n) for n in range(100)]
    with socket.create_connection(("127.0.0.1", place.forwarder), 10) as stream:
        stream.sendall(b"".join(map(framed, asked)))
        left = set(range(100))
        while left:
            message = take_frame(stream)
            number, flags = struct.unpack(">2H", message[:4])
            address = bytes([198, 51, 100, number & 255])
            if number not in left or flags & 0x800F != 0x8000 or message[-4:] != address:
                return f"{message!r} for {number}"
            left.remove(number)
    return None


def all_answered(folder, place, mode):
    """dnsperf loses no question and gets no failure."""
    questions = folder / "questions"
    names = "".join(f"n{n}.example A\n" for n in range(100))
    questions.write_text(names + "type-mx.example MX\n")
    where = ["-s", "127.0.0.1", "-p", place.forwarder]
    printed = askers.said("dnsperf", "-m", mode, *where, "-d", questions, "-l", "2", "-c", "4")
    sums = dict(line.split(":") for line in printed.splitlines() if line.count(":") == 1)
    sums = {key.strip(): text.split() for key, text in sums.items()}
    keys = "Queries completed", "Queries lost", "Response codes"
    completed, lost, codes = (sums.get(key, ["?"]) for key in keys)
    is_fine = lost[0] == "0" and completed[0] not in ("0", "?")
    return None if is_fine and codes[0] == "NOERROR" and len(codes) <= 3 else printed


def getent_can_ask():
    """Whether getent can ask: at port 53 of a server in /etc/resolv.conf, for root in a name space
    with a file of its own."""
    return os.geteuid() == 0 and path("getent") and path("unshare")


def getent(folder, serve):
    """The C library finds addresses of a name and of an alias, and none of a missing name."""
    (folder / "resolv.conf").write_text("nameserver 127.0.0.153\noptions timeout:8 attempts:1\n")
    bound = f"mount --bind {folder}/resolv.conf /etc/resolv.conf"
    asking = ["unshare", "--mount", "--propagation", "private", "sh", "-c",
              f'{bound} && exec getent ahostsv4 "$1"', "sh"]
    addresses = {"type-a.example": {"198.51.100.5", "198.51.100.6"},
                 "across.example": {"203.0.113.9"}, "gone.example": set()}
    with serve("127.0.0.153:53"):
        for name, wanted in addresses.items():
            met = {line.split()[0] for line in askers.said(*asking, name).splitlines()}
            if met != wanted:
                return f"{name}: {met} in place of {wanted}"
    return None
