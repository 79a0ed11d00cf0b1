"""Name servers, on this machine alone, each with its zones."""
from others import zone
from repository.packing import query
from running import programs
from running.foreign import text
from running.programs import Program, answers


class Server:
    """A name server, to be stopped and started again. `without`: types that the program can't hold;
    `head`: the beginning of the configuration, with `more` in it."""

    command = head = more = ""
    without = ()

    def __init__(self, folder, port, address="127.0.0.1", zones=None):
        """`zones` has the text of each zone's master file, by default from zone.py."""
        self.folder, self.port, self.address, self.process = folder, port, address, None
        self.zones = zones or {each: zone.master_file(each, self.without) for each in zone.ZONES}
        self.write_zones()

    def write_zones(self):
        for name, text in self.zones.items():
            (self.folder / name).write_text(text)

    @classmethod
    def is_installed(cls):
        return not programs.missing(cls.command)

    def zone(self, name):
        """The lines of the configuration for a zone."""
        return ""

    def configured(self):
        """Writes the configuration; returns the path."""
        file = self.folder / "conf"
        head = self.head.format(**vars(self), more=self.more)
        file.write_text(head + "".join(map(self.zone, self.zones)))
        return file

    def start(self):
        """Starts the program, and waits for its first answer."""
        self.begin()
        self.process.wait_until(lambda: answers(self.address, self.port, query("www.example")))

    def begin(self):
        """Starts the program without a wait."""
        words = [programs.path(self.command), *self.words()]
        self.process = Program(words, log=self.folder / "log", cwd=self.folder)

    def stop(self):
        self.process.stop()


class Named(Server):
    command, head = "named", text("named")
    more = "recursion no; minimal-responses no; notify no;"

    def words(self):
        return ["-g", "-n", "1", "-c", self.configured()]

    def zone(self, name):
        return f'zone "{name}" {{ type primary; file "{name}"; check-names ignore; }};\n'


class Nsd(Server):
    command, head = "nsd", text("nsd")

    def words(self):
        return ["-d", "-c", self.configured()]

    def zone(self, name):
        return f'zone:\n  name: "{name}"\n  zonefile: "{name}"\n'


class Unbound(Server):
    command, head = "unbound", text("unbound") + "".join(
        f'  local-zone: "{each}." static\n' for each in zone.ZONES)

    def words(self):
        return ["-d", "-c", self.configured()]

    def zone(self, name):
        return "".join(f"  local-data: '{owner} {zone.LIFETIME} IN {kind} {data}'\n"
                       for owner, kind, data in zone.ZONES[name] if kind not in self.without)


class Pdns(Server):
    command = "pdns_server"
    without = ("RT",)

    def words(self):
        return [f"--config-dir={self.folder}", f"--socket-dir={self.folder}", "--launch=bind",
                f"--bind-config={self.configured()}", f"--local-address={self.address}",
                f"--local-port={self.port}", "--daemon=no", "--guardian=no", "--setuid=",
                "--setgid="]

    def zone(self, name):
        return f'zone "{name}" {{ type master; file "{self.folder}/{name}"; }};\n'


class Dnsmasq(Server):
    """dnsmasq, without zones, but with records of some types, and any type by octets."""

    command = "dnsmasq"
    with_types = ("A", "AAAA", "TXT", "SRV", "MX", "CAA", "PTR", "TYPE65400")
    without = tuple(set(zone.TYPES).difference(with_types))

    def words(self):
        records = [record for each in zone.ZONES.values() for record in each]
        return ["-k", "--no-resolv", "--no-hosts", "--conf-file=/dev/null", "--user=root",
                "--cache-size=0", "--bind-interfaces", f"--listen-address={self.address}",
                f"--port={self.port}", "--local=/example/test/", f"--local-ttl={zone.LIFETIME}",
                *(word for record in records for word in options_of(*record))]


def options_of(name, kind, data):
    """The options by which dnsmasq holds a record."""
    fields = [field.strip('"').rstrip(".") for field in data.split()]
    texts = ",".join(data.strip('"').split('" "'))
    forms = {"A": "host-record={name},{data}", "AAAA": "host-record={name},{data}",
             "CNAME": "cname={name},{0}", "MX": "mx-host={name},{1},{0}",
             "SRV": "srv-host={name},{3},{2},{0},{1}", "TXT": "txt-record={name},{texts}",
             "CAA": "caa-record={name},{0},{1},{2}", "PTR": "ptr-record={name},{0}"}
    form = "dns-rr={name},{number},{2}" if kind[4:].isdigit() else forms.get(kind)
    named = {"name": name.rstrip("."), "data": data, "texts": texts, "number": kind[4:]}
    return ["--" + form.format(*fields, **named)] if form else []


ALL = [Unbound, Named, Nsd, Dnsmasq, Pdns]
