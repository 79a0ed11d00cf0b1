"""The office of the tests: its addresses, its configuration, and its conversations."""
from making import Capturing
from repository.packing import address, message

FORWARDER, FIRST, SECOND, CORPORATE = "10.0.0.53:53", "192.0.2.1:53", "192.0.2.2:53", "10.0.0.10:53"
ONE, OTHER = "10.0.0.7:40000", "10.0.0.8:40001"
QUERY, REPLY, PLAIN = 0x0100, 0x8180, 0x8580  # RD; QR, RD, RA; QR, AA, RD, RA
ACK, SYN, FIN, RST = 16, 2, 1, 4

OFFICE = """version = 2
listen = "10.0.0.53:53"

[limits]
tries = 2
ask_ms = 1000
deadline_ms = 3000
stale_s = 60

[[route]]
suffix = "."
servers = ["192.0.2.1:53", "192.0.2.2:53"]

[[route]]
suffix = "corp.example"
servers = ["10.0.0.10:53"]

[[route]]
suffix = "lan"
deny = true
"""


class Scene(Capturing):
    """A capture with the forwarder's conversations."""

    def __init__(self, *link):
        super().__init__(*link)
        self.port = 5000

    def question(self, at, client, identifier, question):
        self.udp(at, client, FORWARDER, message(identifier, QUERY, question))

    def answer(self, at, client, identifier, question, flags=REPLY, answers=(), authority=()):
        self.udp(at, FORWARDER, client, message(identifier, flags, question, answers, authority))

    def query(self, at, server, question):
        """A query from a port of its own; gives the port."""
        self.port += 1
        self.udp(at, f"10.0.0.53:{self.port}", server, message(self.port, QUERY, question))
        return self.port

    def reply(self, at, server, port, question, flags=PLAIN, answers=(), authority=(), identifier=None):
        self.udp(at, server, f"10.0.0.53:{port}", message(identifier or port, flags, question, answers, authority))

    def told(self, at, answered, client, identifier, question, *rest, **records):
        """A question, and its answer at another moment."""
        self.question(at, client, identifier, question)
        self.answer(answered, client, identifier, question, *rest, **records)

    def replied(self, at, later, server, question, *rest, **records):
        """A query, and its reply at another moment."""
        self.reply(later, server, self.query(at, server, question), question, *rest, **records)

    def fetched(self, at, client, identifier, question, seconds, numbers, server=FIRST):
        """A question that is asked, replied to 10 ms later with an address, and answered 1 ms after
        that."""
        self.question(at, client, identifier, question)
        port = self.query(at + 0.2, server, question)
        self.reply(at + 10.2, server, port, question, answers=[address(seconds, *numbers)])
        self.answer(at + 11, client, identifier, question, answers=[address(seconds, *numbers)])
