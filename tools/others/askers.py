"""Programs that ask: the call of each, and the result code and records in its output."""
import shutil
import subprocess

try:
    import dns.message
    import dns.query
    import dns.rcode
except ImportError:
    dns = None


def said(*words):
    """The output of a command."""
    words = [str(word) for word in words]
    return subprocess.run(words, capture_output=True, text=True, timeout=30, check=False).stdout


class Reply:
    """A result code, and records as (owner, seconds, type, data), in order of their texts."""

    def __init__(self, code, records):
        self.code = code
        self.records = sorted((owner.lower(), int(seconds), kind, " ".join(data))
                              for owner, seconds, _, kind, *data in records)

    def without_seconds(self):
        return [(owner, kind, data) for owner, _, kind, data in self.records]

    def __repr__(self):
        return f"{self.code} {self.records}"


def answer_section(lines):
    """The records between the heading of the answer section and the next empty line, as fields."""
    records, inside = [], False
    for line in lines:
        if line.startswith(";; ANSWER"):
            inside = True
        elif not line.strip() or line.startswith(";;"):
            inside = False
        elif inside:
            records.append(line.split())
    return records


def code_after(mark, lines):
    """The word after the last mark, up to a comma or a semicolon."""
    ends = [line.split(mark)[1] for line in lines if mark in line]
    codes = [end.split(",")[0].split(";")[0].strip() for end in ends]
    return codes[-1] if codes else "no reply"


class Dig:
    command = "dig"
    shows_large = True
    options = ("+tries=1", "+time=8", "+noedns")

    def lines(self, port, name, kind, *options):
        where = ["@127.0.0.1", "-p", port]
        return said(self.command, *where, *self.options, *options, name, kind).splitlines()

    def ask(self, port, name, kind, tcp=False):
        lines = self.lines(port, name, kind, "+tcp" if tcp else "+notcp")
        return Reply(code_after("status: ", lines), answer_section(lines))


class Kdig(Dig):
    command = "kdig"
    options = ("+retry=0", "+time=8")


class Drill:
    command = "drill"
    shows_large = True

    def ask(self, port, name, kind, tcp=False):
        words = ["-t" if tcp else "-a", "-p", port, "@127.0.0.1", name, kind]
        lines = said("drill", *words).splitlines()
        return Reply(code_after("rcode: ", lines), answer_section(lines))


class Host:
    """host, which shows no record of 4 KiB, and of a failure the name alone."""

    command = "host"
    shows_large = False

    def ask(self, port, name, kind, tcp=False):
        options = ["-v", *(["-T"] if tcp else []), "-p", port, "-t", kind]
        lines = said("host", *options, name + ".", "127.0.0.1").splitlines()
        failures = [line.split("(")[1].rstrip(")") for line in lines if " not found: " in line]
        code = failures[0] if failures else code_after("status: ", lines)
        return Reply(code, answer_section(lines))


class Dnspython:
    command = "python3-dnspython"
    shows_large = True

    def ask(self, port, name, kind, tcp=False):
        asked, place = dns.message.make_query(name, kind), ("127.0.0.1", 8, port)
        reply = dns.query.tcp(asked, *place) if tcp else (
            dns.query.udp_with_fallback(asked, *place)[0])
        lines = [line for rrset in reply.answer for line in rrset.to_text().splitlines()]
        return Reply(dns.rcode.to_text(reply.rcode()), [line.split() for line in lines])


def installed(least):
    """The installed programs, and the missing names of `least`."""
    there = [each() for each in (Dig, Kdig, Drill, Host) if shutil.which(each.command)]
    there += [Dnspython()] if dns else []
    names = [each.command for each in there]
    return there, [name for name in least if name not in names]
