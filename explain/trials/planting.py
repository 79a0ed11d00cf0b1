"""Plants faults: each changes packets of a capture of a right service, so that one answer is wrong.

The file `planted` has one fault a line. Its word names a function, called with the case, the
question and the further words."""
import json
import pathlib
import socket

import dns.flags
import dns.message
import dns.rcode
import dns.rrset

import packets

PLANTED = pathlib.Path(__file__).resolve().parent / "planted"
SERVICE = "10.0.0.53:53"


class Case:
    """A changed capture, and the question whose answer has to be found."""

    def __init__(self, stored, line, capture):
        self.line, self.capture = line, capture
        self.kind, self.base, rest = line.split("; ")
        asked, self.planted = rest.split(": ")
        self.name, self.number, self.type = [*asked.split(), "A"][:3]
        source = stored if (stored / f"{self.base}.pcap").exists() else capture.parent
        self.configuration = source / f"{self.base}.toml"
        self.link, self.captured = packets.read(source / f"{self.base}.pcap")
        truth = json.loads((source / f"{self.base}.json").read_text())
        self.questions, self.options = truth["questions"], truth["options"]
        self.row = self.row_of(self.number)

    def row_of(self, number, name=None):
        """A question for a name, by its number in the order of asking; -1 is the last."""
        wanted = (name or self.name, self.type)
        return [row for row in self.questions if (row[3].lower(), row[4]) == wanted][int(number)]

    def place(self, row, answer=True):
        """The place of the packet of a question by UDP, or of its answer."""
        ends = (SERVICE, row[0]) if answer else (row[0], SERVICE)
        number = row[2].to_bytes(2, "big")
        return next(index for index, packet in enumerate(self.captured) if packet.is_datagram
                    and packet.ends == ends and packet.message[:2] == number)

    def message(self, row=None):
        """The answer to a question, without more the case's."""
        return dns.message.from_wire(self.captured[self.place(row or self.row)].message)

    def answer(self, message):
        """Puts another message in the place of the answer."""
        index = self.place(self.row)
        message.id = self.row[2]
        octets = message.to_wire(want_shuffle=False)
        self.captured[index] = self.captured[index].copy(message=octets)

    def exchanges(self, first=0, last=2**64):
        """The places of each query for the name between two packets, and of its reply, if any."""
        for index, packet in enumerate(self.captured[:last]):
            if index >= first and packet.is_datagram and packet.ends[1].startswith("192.0.2."):
                query = dns.message.from_wire(packet.message)
                if str(query.question[0].name).lower() == self.name + ".":
                    yield index, next((place for place, later in enumerate(self.captured)
                                       if place > index and later.answers(packet)), None)

    def ask_nobody(self, before):
        """Takes the queries for the name between the answer to another question and this one's."""
        found = list(self.exchanges(self.place(before), self.place(self.row)))
        gone = {index for pair in found for index in pair if index is not None}
        self.captured = [packet for index, packet in enumerate(self.captured) if index not in gone]

    def put(self, packet):
        """Puts a packet at the place of its time."""
        later = (index for index, held in enumerate(self.captured) if held.time > packet.time)
        self.captured.insert(next(later, len(self.captured)), packet)


def cases(stored, folder):
    """Plants each fault, and writes the changed captures into a folder."""
    lines = [f"{first} {last}" for first, _, lasts in
             (line.rpartition(" ") for line in PLANTED.read_text().splitlines()[1:])
             for last in lasts.split("|")]
    for number, line in enumerate(lines):
        case = Case(stored, line, folder / f"fault{number}.pcap")
        verb, *words = case.planted.split()
        FAULTS[verb](case, *words)
        packets.write(case.capture, case.link, case.captured)
        yield case


def with_texts(message, *texts, place=-1, section="answer"):
    """A message with other data in one of its sets."""
    sets = getattr(message, section)
    sets[place] = dns.rrset.from_text_list(
        sets[place].name, sets[place].ttl, "IN", sets[place].rdtype, texts)
    return message


def texts_of(message):
    return [str(item) for item in message.answer[-1]]


def with_nothing(message, code):
    message.answer, message.authority = [], []
    message.set_rcode(dns.rcode.from_text(code))
    return message


def ttl(case, seconds, place=None):
    message = case.message()
    sets = message.answer + message.authority
    for held in sets if place is None else [sets[int(place)]]:
        held.ttl += int(seconds)
    case.answer(message)


def data(case, *text):
    message = case.message()
    case.answer(with_texts(message, " ".join(text), *texts_of(message)[1:]))


def data_of_set(case, place, text):
    case.answer(with_texts(case.message(), text, place=int(place)))


def data_of_soa(case, *text):
    case.answer(with_texts(case.message(), " ".join(text), section="authority"))


def data_of(case, number):
    """The data of the answer to another question for the name, under the right lifetime."""
    case.answer(with_texts(case.message(), *texts_of(case.message(case.row_of(number)))))


def of_another_server(case, server, *text):
    """A server of another route says something of the name, asked by another program."""
    begin = case.captured[case.place(case.row, False)].time
    query, reply = (case.captured[index] for index in next(case.exchanges()))
    message, wrong = dns.message.from_wire(reply.message), case.message()
    for changed in (message, wrong):
        if text:
            with_texts(changed, *text)
        else:
            soa = "ns.example. h.example. 1 1 1 1 300"
            with_nothing(changed, "NXDOMAIN").authority = [
                dns.rrset.from_text("example.", 300, "IN", "SOA", soa)]
    address = socket.inet_aton(server)
    case.put(query.copy(time=begin - 9000, dst=address, sport=33333))
    case.put(reply.copy(time=begin - 5000, src=address, dport=33333, message=message.to_wire()))
    case.answer(wrong)


def unmatched(case, how):
    """A reply to no query has other data, and so has the answer."""
    query, packet = (case.captured[index] for index in next(case.exchanges()))
    message = with_texts(dns.message.from_wire(packet.message), "203.0.113.99")
    changes = {"time": (query.time + packet.time) // 2}
    changes.update({
        "port": {"dport": packet.ip.data.dport + 1}, "source": {"sport": 5353},
        "address": {"src": socket.inet_aton("192.0.2.2")},
        "late": {"time": case.captured[case.place(case.row)].time + 20000}}.get(how, {}))
    if how == "id":
        message.id ^= 0x5555
    elif how == "question":
        message.question = [dns.rrset.from_text("ftp.example.", 0, "IN", "A")]
    elif how == "query":
        message.flags &= ~dns.flags.QR
    case.answer(with_texts(case.message(), "203.0.113.99"))
    case.put(packet.copy(message=message.to_wire(), **changes))


def turned(case, port):
    """The only reply goes to another port than the query's, or comes from another."""
    _, reply = next(case.exchanges())
    case.captured[reply] = case.captured[reply].copy(**{port: 7777})


def late_data(case):
    """The data of a late reply."""
    _, reply = next(case.exchanges())
    message = dns.message.from_wire(case.captured[reply].message)
    held = case.message()
    held.set_rcode(dns.rcode.NOERROR)
    held.answer = message.answer
    case.answer(held)


def kept(case, number):
    """The answer has data of before a restart, with the lifetime left; nobody was asked."""
    before = case.row_of(number)
    case.ask_nobody(before)
    passed = case.captured[case.place(case.row)].time - case.captured[case.place(before)].time
    message = case.message(before)
    for held in message.answer:
        held.ttl = max(0, held.ttl - passed // 1000000)
    case.answer(message)


def nothing(case, code):
    case.answer(with_nothing(case.message(), code))


def code(case, text):
    message = case.message()
    message.set_rcode(dns.rcode.from_text(text))
    case.answer(message)


def fewer(case):
    message = case.message()
    case.answer(with_texts(message, *texts_of(message)[:-1]))


def more(case, text):
    message = case.message()
    case.answer(with_texts(message, *texts_of(message), text))


def last_set_less(case):
    message = case.message()
    message.answer.pop()
    case.answer(message)


def message_of(case, name):
    """The whole answer to another question, but for the identifier."""
    case.answer(case.message(case.row_of(0, name)))


def records_of(case, name):
    """The data of another name's set, under the asked name."""
    case.answer(with_texts(case.message(), *texts_of(case.message(case.row_of(0, name)))))


def sets_of(case, name):
    """The set of another name, under its own name."""
    message = case.message()
    message.answer = case.message(case.row_of(0, name)).answer
    case.answer(message)


def answer_of(case, number):
    """The answer to an earlier question for the name."""
    case.answer(case.message(case.row_of(number)))


def not_asked(case):
    """Expired data at once: no server was asked, and none failed."""
    case.ask_nobody(case.row_of(0))


def expired_denial(case):
    """A denial that expired, as expired sets are answered."""
    message = case.message(case.row_of(0))
    message.authority[0].ttl = 30
    case.answer(message)


def denied_at_the_end(case):
    """The alias, and a denial of its target in place of its address."""
    message = case.message()
    message.answer.pop()
    message.set_rcode(dns.rcode.NXDOMAIN)
    case.answer(message)


def served(case, text):
    """An address of a name that the configuration denies."""
    message = case.message()
    message.set_rcode(dns.rcode.NOERROR)
    message.answer = [dns.rrset.from_text(case.name + ".", 300, "IN", "A", text)]
    case.answer(message)


FAULTS = {
    function.__name__: function for function in (
        ttl, data, data_of_set, data_of_soa, data_of, of_another_server, unmatched, turned,
        late_data, kept, nothing, code, fewer, more, last_set_less, message_of, records_of, sets_of,
        answer_of, not_asked, expired_denial, denied_at_the_end, served)}
