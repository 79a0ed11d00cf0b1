"""Tests of forwarder-advise."""
import importlib.util
import pathlib
import subprocess
import tempfile
import textwrap
import tomllib

from forwarder_import import advice, advise, files
from repository.packing import NS, name, record, reply
from running.nameserver import NameServer
from running.trying import NotHere
from testing import HERE, accept, expect, test

TABLE = tomllib.loads((HERE / "tests" / "advices.toml").read_text())
BASE = TABLE["base"]
DROP_IN = "forwarder.service.d/office.conf"
# The replaced text for the keys of a case.
OLD = {"limits": "tries = 3\n", "listen": 'listen = "10.0.0.53:53"\n',
       "route": '[[route]]\nsuffix = "lan"\n'}

REFUSED = "have the server serve this machine and these names, or write another"
CLOSED = "let TCP through to its port, since large answers need it"
FILTERED = "have packet filters let it through, or write another server"


def answers(query):
    return reply(query, 0x8180)


def refuses(query):
    return reply(query, 0x8185)


def refers(query):
    return reply(query, 0x8180, authority=[record(name("example"), NS, 60, name("ns.example"))])


def mistakes(query):
    return bytes([query[0] ^ 1]) + answers(query)[1:]


def keeps_silent(_):
    """No reply."""


# Behaviour by UDP and by TCP, where nothing listens for None, and the end of the line.
SERVERS = (
    (answers, answers, "by UDP NOERROR, by TCP NOERROR"),
    (answers, None, f"by UDP NOERROR, by TCP `Connection refused`: {CLOSED}"),
    (refuses, refuses, f"by UDP REFUSED, by TCP REFUSED: {REFUSED}"),
    (keeps_silent, answers, f"by UDP nothing in 2 s, by TCP NOERROR: {FILTERED}"),
    (refers, answers, "by UDP a referral, by TCP NOERROR: write a server of the zone itself"),
    (mistakes, answers, f"by UDP no reply that fits (BadResponse), by TCP NOERROR: {FILTERED}"))


def served(by_udp, by_tcp):
    """The address of a server with a behaviour by UDP and another by TCP."""
    server = NameServer(by_udp, by_tcp and NameServer.framing(by_tcp))
    if not by_tcp:
        server.stop(server.tcp)
    return f"127.0.0.1:{server.port}"


def advised(folder, text, *words):
    """The output of forwarder-advise on a text, without the path, and the status."""
    (folder / "forwarder.toml").write_text(text)
    command = [HERE / "forwarder-advise", *words, "--units", folder, folder / "forwarder.toml"]
    ran = subprocess.run(command, capture_output=True, text=True)
    expect(ran.stderr, "")
    lines = ran.stdout.replace(f"{folder}/forwarder.toml: ", "").replace(str(folder), "FOLDER")
    return lines.splitlines(), ran.returncode


def text_of(case):
    """The configuration of a case: BASE with a change."""
    for key, old in {**OLD, "new": case.get("old", "")}.items():
        if key in case:
            expect(old in BASE, True)
            new = f"[[route]]\n{case[key]}\n{old}" if key == "route" else case[key]
            return BASE.replace(old, new)
    return BASE


@test
def each_advice_has_a_case_and_a_neighbour_without(program):
    """Each case is accepted by the program."""
    for rule in [each.__name__ for each in advice.ALL]:
        has_lines = {"lines" in case for case in TABLE["case"] if case["rule"] == rule}
        expect((rule, has_lines), (rule, {True, False} if rule != "no_route_for_all" else {True}))
    for case in TABLE["case"]:
        text, lines = text_of(case), case.get("lines", [])
        accept(program, text)
        with tempfile.TemporaryDirectory() as folder:
            drop_in = pathlib.Path(folder) / DROP_IN
            drop_in.parent.mkdir()
            drop_in.write_text(case.get("drop_in", ""))
            met = advised(pathlib.Path(folder), text)
        expect((case["rule"], *met), (case["rule"], lines, 1 if lines else 0))


@test
def the_administrators_first_configuration_gets_no_advice(_):
    """As in docs/ADMIN.md."""
    page = (HERE.parent / "docs" / "ADMIN.md").read_text()
    text = textwrap.dedent(page.partition("```toml\n")[2].partition("```")[0].rstrip(" "))
    with tempfile.TemporaryDirectory() as folder:
        expect((text[:7], *advised(pathlib.Path(folder), text)), ("version", [], 0))


@test
def servers_are_asked_by_udp_and_tcp(_):
    """Each does something else."""
    if not importlib.util.find_spec("dns"):
        raise NotHere("python3-dnspython missing")
    peers = [served(by_udp, by_tcp) for by_udp, by_tcp, _ in SERVERS]
    lines = [f"route `.`: {peer}: {said}" for peer, (_, _, said) in zip(peers, SERVERS)]
    head = BASE.partition("[[route]]")[0]
    with tempfile.TemporaryDirectory() as folder:
        for count, status in ((len(peers), 1), (1, 0)):
            quoted = ", ".join(f'"{peer}"' for peer in peers[:count])
            text = f'{head}[[route]]\nsuffix = "."\nservers = [{quoted}]\n'
            expect(advised(pathlib.Path(folder), text), ([], 0))
            expect(advised(pathlib.Path(folder), text, "--ask"), (lines[:count], status))


@test
def advice_on_what_check_refuses_is_a_line(program):
    """Only worked configurations refused by the program are unreadable for advice."""
    for path in sorted((HERE.parent / "crates/forwarder_rows/data/check").iterdir()):
        if "." in path.name:
            continue
        try:
            lines, is_fine = advise.lines_of(advise.arguments([str(path)]))
            expect(is_fine, not lines)
        except files.Unreadable:
            ran = subprocess.run([program, "check", path], capture_output=True)
            expect((path.name, ran.returncode != 0), (path.name, True))
