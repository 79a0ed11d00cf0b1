"""Reads dnsmasq.conf, with included files: see dnsmasq(8)."""
import os
import re

from .files import Line, Refused
from .found import LocalZone
from .kept_dnsmasq import OF_RECORDS, STAYS, KeptDnsmasq
from .names import LISTEN, LOCAL_ZONES, cut, ipv4_of, key_of, peer_of, reverse_zones, suffix_of
from .rows import Row
from .tables import Options

DNSMASQ = Options("dnsmasq", "dnsmasq")
DHCP, RECORDS = (re.compile("|".join(each)) for each in (DNSMASQ.dhcp, DNSMASQ.records))
WITHOUT_VALUE = {"no-resolv", "no-hosts", "bogus-priv", "use-stale-cache"}
NULL = ("#", "0.0.0.0", "::")  # addresses of nobody


class Dnsmasq:
    """Reads all files of a dnsmasq."""

    def __init__(self, files, found):
        self.files, self.found = files, found
        self.once = set()  # paths of read files, since dnsmasq reads each once
        self.first, self.serves, self.has_hosts = None, True, True
        self.no_resolv_line, self.resolv_files = None, {}  # a path for each line of `resolv-file`
        self.kept = found.kept_dnsmasq = KeptDnsmasq(found)
        self.wild = []  # domains with a wildcard, their line, and a call with the suffix
        self.options = {
            "server": self.server, "local": self.server, "address": self.address,
            "rev-server": self.rev_server, "domain": self.domain, "port": self.port,
            "listen-address": self.listen_address, "no-resolv": self.no_resolv,
            "no-hosts": self.no_hosts, "conf-dir": self.conf_dir, "conf-file": self.conf_file,
            "servers-file": self.conf_file,
            # A file in place of /etc/resolv.conf; further lines add files.
            "resolv-file": lambda value, line: self.resolv_files.update(
                {line: self.files.path(value, line)}),
            "bogus-priv": lambda _, line: found.local.extend(
                LocalZone(zone, line) for zone in LOCAL_ZONES),
            "cache-size": lambda value, line: found.limit("cache", value, line),
            "dns-forward-max": lambda value, line: found.limit(
                "inquiries", value, line, "for all routes together"),
            # Seconds after the end of a record; 0 is for ever.
            "use-stale-cache": lambda value, line: found.limit(
                "stale_s", "999999" if value == "0" else value or "86400", line,
                "once all tries failed")}

    def read(self, path, by=None):
        """Takes the lines of a file, included by the line `by`."""
        if by is None and os.path.realpath(path) in self.once:
            return
        self.first = self.first or Line(path, 0)
        self.once.add(os.path.realpath(path))
        with self.files.lines(path, by) as lines:
            for line in lines:
                with self.found.refusing(line):
                    self.take(line)

    def take(self, line):
        name, value = option_of(line.text)
        if name in self.options and not value and name not in WITHOUT_VALUE:
            raise Refused("it has no value")
        if name in STAYS:
            self.kept.stay(name, value, line)
        if name in self.options:
            self.options[name](value, line)
        elif re.fullmatch(DHCP, name):
            self.kept.take(name, value, line)
        elif re.fullmatch(RECORDS, name):
            self.record(names_of_record(name, value), line, OF_RECORDS)
        elif name:
            DNSMASQ.settle(self.found, name, value, line)

    def record(self, names, line, what):
        """A line of own records, for the kept dnsmasq, if any."""
        self.kept.file.append(line)
        self.found.record(names, line, Refused(what, Row.RECORDS))

    def end(self, kinds):
        """Notes what dnsmasq does without a line."""
        if self.serves and not self.found.addresses:
            what = "without `listen-address` dnsmasq listens at all addresses"
            self.found.leave(self.first, f"{what}: {LISTEN}", Row.LISTENING)
        self.say_of_resolv_files(kinds["resolv"].paths if "resolv" in kinds else [])
        if self.serves and self.has_hosts:
            to = "a name server that has its names"
            if self.kept.is_asked():
                to = f"{self.kept.peer} for those that are not below a domain of leases"
            what = f"without `no-hosts` dnsmasq answers from /etc/hosts, too: write a route to {to}"
            self.found.leave(self.first, what, Row.RECORDS)
        named = set(self.found.routes)
        for domain, line, call in self.wild:
            self.wildcard(domain, line, call, named)

    def wildcard(self, domain, line, call, named):
        """A domain with a wildcard, unless a line without wildcard decides: for names below, and
        without a dot after the asterisk also for longer labels."""
        suffix = domain.removeprefix("*").lstrip(".")
        if key_of(suffix) in named:
            self.found.pass_over(line, f"the line of {suffix} decides")
            return
        try:
            call(suffix)
        except Refused as refused:
            self.found.leave(line, f"{domain}: {refused.what}", refused.row)
            return
        route = self.found.route(suffix)
        for value in [route, *route.servers.values()]:
            value.remark = value.remark or f"there {domain}, here {suffix} and the names below"
        if not domain.startswith("*."):
            what = f"names like x{suffix} are below no suffix: write a route for each"
            self.found.leave(line, what)

    def why_not_read(self, path):
        """Why dnsmasq does not ask the servers of a resolv.conf; empty if asked."""
        why = "dnsmasq does not ask this server"
        if self.no_resolv_line:
            return f"{why}: no-resolv at {self.files.place(self.no_resolv_line)}"
        if not self.resolv_files or any(is_at(path, each) for each in self.resolv_files.values()):
            return ""
        line, named = next(iter(self.resolv_files.items()))
        return f"{why}: resolv-file at {self.files.place(line)}: give {named} instead of this file"

    def say_of_resolv_files(self, given):
        """Says whose servers are missing. `given` are the paths of files like resolv.conf."""
        for line, path in self.resolv_files.items():
            if self.no_resolv_line:
                self.found.pass_over(line, "with `no-resolv` it has no effect")
            elif any(is_at(each, path) for each in given):
                self.found.pass_over(line, "its servers are those that the file has now")
            else:
                what = f"give {path} as a file, too, to take those that it has now"
                self.found.leave(line, f"its servers may change: {what}", Row.PROVIDED)
        if self.serves and not self.no_resolv_line and not self.resolv_files and not given:
            what = "without `no-resolv` dnsmasq asks the servers of /etc/resolv.conf, too"
            self.found.leave(self.first, f"{what}: give that file as well", Row.PROVIDED)

    def server(self, value, line):
        """`server=/DOMAIN/ADDRESS#PORT@SOURCE`; each part may be missing."""
        domains, target = domains_of(value)
        server, *sources = target.split("@")
        for source in sources:
            self.found.leave(line,
                             f"queries do not leave from {source}: let the routing table decide")
        if not domains and not server:
            raise Refused("it names neither a domain nor a server")
        for domain in domains or ["#"]:
            self.each_domain(line, domain, lambda suffix: self.server_of(suffix, server, line))

    def server_of(self, suffix, server, line):
        """A server for a suffix; `#` means the servers of all names, nothing means nobody."""
        if not server:
            self.found.deny(suffix, line)
            self.kept.local += [(suffix_of(suffix), line)] if suffix != "." else []
        elif server == "#":
            self.found.route(suffix).standard.append(line)
        else:
            self.found.serve(suffix, lambda: peer_of(*cut(server, "#")), line)

    def each_domain(self, line, domain, call):
        """Calls with the suffix of a domain; notes why a domain can't be a suffix."""
        if domain.startswith("*"):
            self.wild.append((domain, line, call))
            return
        suffix = "." if domain == "#" else domain.lstrip(".") if domain.strip(".") else domain
        try:
            if not suffix:
                raise Refused(
                    "names without a dot are asked like others: give clients a search domain")
            call(suffix)
        except Refused as refused:
            self.found.leave(line, f"{domain}: {refused.what}" if domain else refused.what,
                             refused.row)

    def address(self, value, line):
        """`address=/DOMAIN/ADDRESS`; without an address the domain does not exist."""
        domains, target = domains_of(value)
        if not domains:
            raise Refused("it names no domain")
        if target and target not in NULL:
            what = "write a route to a name server that has this record"
            self.record([domain.strip(".") for domain in domains], line, what)
            return
        remark = f"there the address {target}, here NXDOMAIN" if target else ""
        for domain in domains:
            self.each_domain(line, domain, lambda suffix: self.found.deny(suffix, line, remark))

    def rev_server(self, value, line):
        """`rev-server=NETWORK,ADDRESS#PORT`: a server for the names of addresses."""
        network, _, server = value.partition(",")
        zones = reverse_zones(network.strip())
        self.server(f"/{'/'.join(zones)}/{server.strip()}", line)

    def domain(self, value, line):
        """`domain=DOMAIN,NETWORK,local`: with the last word the names are asked of nobody."""
        domain, *rest = (word.strip() for word in value.split(","))
        if rest[1:] == ["local"]:
            self.server(f"/{'/'.join([domain, *reverse_zones(rest[0])])}/", line)

    def listen_address(self, value, line):
        """Addresses with commas between."""
        for text in value.split(","):
            with self.found.refusing(line):
                self.found.listen(ipv4_of(text.strip()), None, line)

    def port(self, value, line):
        """The port of all addresses; 0 is for DHCP alone."""
        if value == "0":
            self.serves = self.kept.serves = False
            raise Refused(
                "with port 0 dnsmasq serves no DNS, so none of its settings of DNS has an effect")
        self.found.set_port(value, line)

    def no_resolv(self, _, line):
        self.no_resolv_line = line
        self.found.pass_over(line, "servers are those of the configuration alone")

    def no_hosts(self, _, line):
        self.has_hosts = False
        self.found.pass_over(line, "hosts files are never read")

    def conf_file(self, value, line):
        self.read(self.files.path(value, line), line)

    def conf_dir(self, value, line):
        """The files of a folder, without the named endings, or with the endings after `*` alone."""
        folder, *endings = value.split(",")
        try:
            paths = files_in(self.files.path(folder, line), endings)
        except OSError as fault:
            raise Refused(f"the folder can't be read: {fault.strerror}") from None
        for path in paths:
            if os.path.realpath(path) in self.once:
                self.found.pass_over(line, f"{path} is read once, as by dnsmasq")
            else:
                self.read(path, line)


def is_at(path, named):
    """Whether a path is the named path, also below a folder in place of the root."""
    is_copy = os.path.abspath(path).endswith(os.path.abspath(named))
    return is_copy or os.path.realpath(path) == os.path.realpath(named)


def files_in(folder, endings):
    """The files of a folder, as `conf-dir` reads them with these endings."""
    wanted = tuple(ending[1:] for ending in endings if ending.startswith("*"))
    unwanted = tuple(ending for ending in endings if ending and not ending.startswith("*"))
    paths = []
    for name in sorted(os.listdir(folder)):
        is_hidden = (name.startswith(".") or name.endswith("~") or
                     (name.startswith("#") and name.endswith("#")))
        is_chosen = name.endswith(wanted) if wanted else True
        path = os.path.join(folder, name)
        if not is_hidden and is_chosen and not name.endswith(unwanted) and os.path.isfile(path):
            paths.append(path)
    return paths


def names_of_record(name, value):
    """The names of a line of own records, without a final dot."""
    words = [word.strip().removesuffix(".") for word in value.split(",")]
    if name in DNSMASQ.without_names:
        return []
    if name == "cname":
        return [word for word in words if not word.isdigit()][:-1]
    if name == "host-record":
        return [word for word in words if not re.fullmatch(r"[0-9.]*|.*:.*", word)]
    return words[:1]


def option_of(text):
    """Name and value of a line; an empty name for a comment."""
    name, _, value = bare(text).partition("=")
    return name.strip(), value.strip()


def bare(text):
    """A line without comment and quotation marks."""
    if '"' not in text and "#" not in text:
        return text
    said, is_quoted, characters = [], False, iter(enumerate(text))
    for place, character in characters:
        if character == '"':
            is_quoted = not is_quoted
        elif character == "\\" and is_quoted:
            said.append(next(characters, (0, ""))[1])
        elif character == "#" and not is_quoted and not text[place - 1:place].strip():
            break
        else:
            said.append(character)
    if is_quoted:
        raise Refused("a quotation mark is not closed")
    return "".join(said)


def domains_of(value):
    """The domains between slashes, and the rest."""
    if not value.startswith("/"):
        return [], value
    first, *domains, target = value.split("/")
    if first or not domains:
        raise Refused("a slash is missing after the domain")
    return domains, target.strip()
