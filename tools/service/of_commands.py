"""The commands: lines on standard output and standard error, and statuses; and docs/ADMIN.md."""
import os
import pathlib
import re
import signal
import subprocess
import tempfile
import time
import tomllib

from repository.packing import code
from running.forwarder import checked
from running.programs import MAIN, TOP

from .cases import Forwarder, NotHere, Server, case, free_port, need, run_of, within, written
from .messages import SERVFAIL, expect, never, question

OFFICE = TOP / "examples" / "office.toml"
SMALLEST = (TOP / "examples" / "smallest.toml").read_text()
SCRIPT, PRINTED = ((MAIN / part).read_bytes() for part in ("stdin", "stdout"))
ACCEPTED, DEVICE = (b"ok 3\n", b"", 0), (b"device\n", 5)
USAGE = b"usage: forwarder check FILE, replay, or serve FILE TURNS\n", 1
TOO_MANY_TRIES = "version = 1\nlimits = { tries = 17 }\n"
# Why the reader of TOML stops where there is no value.
NO_VALUE = ("invalid value, expected a string, number, boolean, date-time, array or inline table")
REFUSED = tomllib.loads((TOP / "tools" / "service" / "refused.toml").read_text())
LEAST_REFUSED = 32  # lines of the page and of that file


def failed(what, reason):
    """A run with a line for a file or an address that the system refuses."""
    return f"{what}: {reason}\n".encode(), *DEVICE


def no_file(name):
    """A run for a missing file; octets without meaning as text are shown with escapes."""
    if len(name) > 4095:
        return b"the name of the file has more than 4095 octets\n", *DEVICE
    shown = name.decode(errors="backslashreplace")
    return failed(shown, "No such file or directory (os error 2)")


def listening_at(place):
    return SMALLEST.replace("version = 1", f'version = 1\nlisten = "{place}"')


@case
def turns_and_statuses(program):
    server = Server()
    with Forwarder(program, [server], turns=20) as forwarder:
        forwarder.ends_with(b"turns 20 lost 0\n", b"", 0)
    with Forwarder(program, [server]) as forwarder:
        file, place = forwarder.file, f"127.0.0.1:{forwarder.port}"
        in_use = failed(place, "Address already in use (os error 98)")
        expect(run_of(program, "serve", file.name, "1"), in_use)
        forwarder.signal(signal.SIGTERM)
        expect(forwarder.process.wait(5), -signal.SIGTERM)
        file.truncate(9)
        file.flush()
        said = f"the text is no TOML: see line 1, column 10: {NO_VALUE}\n".encode()
        expect(run_of(program, "serve", file.name, "1"), (said, b"fault 1\n", 2))
        for turns in ("", "-1", "18446744073709551616", "x", "000000000000000000001"):
            expect(run_of(program, "serve", file.name, turns)[2], 1)
    expect(run_of(program, "serve", "/no/such/file", "1")[2], 5)


@case
def statuses_of_check(program):
    expect(run_of(program, "check", OFFICE), ACCEPTED)
    expect(run_of(program, "check", "/no/such/file"), no_file(b"/no/such/file"))
    with open("/dev/full", "wb") as full, written(TOO_MANY_TRIES) as refused:
        expect(run_of(program, "check", OFFICE, out=full), (None, *DEVICE))
        said = b"`tries` in `limits` is 17, and has to be 1 to 16\n"
        for words in (["check", refused.name], ["serve", refused.name, "1"]):
            expect(run_of(program, *words), (said, b"fault 7\n", 2))
        expect(run_of(program, "check", refused.name, out=full), (None, b"fault 7\n", 2))
    said = b"the text is no TOML: see line 2, column 5: invalid UTF-8\n"
    with written("version = 1\n# \u00e4 ".encode() + b"\xff\n") as refused:
        expect(run_of(program, "check", refused.name), (said, b"fault 1\n", 2))
    for words in (
            [], ["check"], ["check", OFFICE, OFFICE], ["replay", OFFICE], ["serve", OFFICE],
            ["other"], [b"\xff", OFFICE], ["serve", OFFICE, b"\xff"]):
        expect(run_of(program, *words), (b"", *USAGE))


@case
def examples_are_accepted(program):
    """Each example, and the package's, is accepted with as many routes as headers."""
    examples = sorted((TOP / "examples").glob("*.toml"))
    if len(examples) < 5:
        raise AssertionError(f"there are only {len(examples)} examples")
    for file in [*examples, TOP / "packaging" / "forwarder.toml"]:
        accepted = f"ok {file.read_text().splitlines().count('[[route]]')}\n".encode()
        expect((file.name, *run_of(program, "check", file)), (file.name, accepted, b"", 0))


@case
def what_is_said_where_the_system_refuses(program):
    """A folder, a large file and a foreign address are named with the reason."""
    with tempfile.TemporaryDirectory() as folder:
        said = failed(folder, "Is a directory (os error 21)")
        expect(run_of(program, "check", folder), said)
    with written(b"") as large:
        large.truncate(2**24 + 1)
        said = failed(large.name, "more than 16777216 octets")
        expect(run_of(program, "check", large.name), said)
    with written(b"#" * (2**24 - 12) + b"\nversion = 1") as large:
        expect(run_of(program, "check", large.name)[1:], (b"fault 3\n", 2))
    with written(listening_at("192.0.2.1:53")) as elsewhere:
        said = failed("192.0.2.1:53", "Cannot assign requested address (os error 99)")
        expect(run_of(program, "serve", elsewhere.name, "1"), said)


def lines_of(program, octets):
    """The lines of `check` of a configuration, also on standard error, and the status."""
    printed, errors, status = checked(program, octets)
    return (printed + errors).splitlines(), status


def with_line(text, line):
    """The configuration with this line for the line of the key; a new key comes second."""
    lines, key = text.splitlines(), line.lstrip("[")[:5]
    places = [place for place, each in enumerate(lines) if each.lstrip("[").startswith(key)]
    version = lines.index("version = 1") + 1
    lines[slice(places[0], places[0] + 1) if places else slice(version, version)] = [line]
    return "\n".join(lines) + "\n"


def is_refused(program, line, said, number):
    """The smallest configuration with this line is refused by this text and number."""
    met = lines_of(program, with_line(SMALLEST, line))
    expect((line, met), (line, ([said, f"fault {number}"], 2)))


@case
def what_the_page_for_administrators_shows(program):
    """Each configuration of docs/ADMIN.md is accepted, or refused with the lines on the page."""
    page = (TOP / "docs" / "ADMIN.md").read_text()
    heading = "\n## What a refused configuration prints\n"
    table = page.partition(heading)[2].partition("\n\n**")[0]
    rows = re.findall(r"^\| `([^`]+)` \| (\d+) \| (`+)(.+?)\3 \| .+ \|$", table, re.M)
    for line, number, _, said in rows:
        is_refused(program, line, said.strip(), number)
    form = r"^( *)```toml\n(.*?)^ *```\n(?:\n```text\n(.*?)^```$)?"
    blocks = re.findall(form, page, re.M | re.S)
    for indent, text, said in blocks:
        text = "".join(line[len(indent):] for line in text.splitlines(keepends=True))
        wanted = (said.splitlines(), 2) if said else ([f"ok {text.count('[[route]]')}"], 0)
        expect(lines_of(program, text), wanted)
    utf_16 = ["the text is no TOML: see line 1, column 1: invalid UTF-8", "fault 1"]
    met = lines_of(program, SMALLEST.encode("utf-16"))
    expect((met, utf_16[0] in page), ((utf_16, 2), True))
    marked = b"\xef\xbb\xbf" + SMALLEST.replace("\n", "\r\n").encode()
    expect(lines_of(program, marked), (["ok 1"], 0))
    # Two lines of the table are its head.
    expect((len(rows), len(blocks)), (table.count("\n|") - 2, page.count("```toml\n")))
    if len(rows) + len(REFUSED["line"]) < LEAST_REFUSED:
        tried = f"{len(rows)} lines of the page and {len(REFUSED['line'])} others"
        raise AssertionError(f"only {tried} were tried")


@case
def further_lines_that_are_refused(program):
    """Lines that docs/ADMIN.md leaves out."""
    for each in REFUSED["line"]:
        is_refused(program, each["line"], each["said"], each["fault"])


@case
def why_a_text_is_no_configuration(program):
    """A text without TOML is refused by place and reason, with a hint; a missing `version` with the
    key that may be meant."""
    for each in REFUSED["text"]:
        wanted = [each["said"], f"fault {each['fault']}"], 2
        expect((each["text"], lines_of(program, each["text"])), (each["text"], wanted))


def are_not_there(program, name, run):
    for words in (["check", name], ["serve", name, "1"]):
        expect(run_of(program, *words), run)


@case
def names_of_files_are_octets(program):
    with tempfile.TemporaryDirectory() as folder:
        name = os.path.join(os.fsencode(folder), b"\xe4\xff.toml")
        with open(name, "wb") as copied:
            copied.write(OFFICE.read_bytes())
        expect(run_of(program, "check", name), ACCEPTED)
    for missing in (name, b"\xff", b"", b"a" * 4096, b"a" * 100000):
        are_not_there(program, missing, no_file(missing))


@case
def names_of_files_with_control_characters(program):
    """Escapes show the characters: a line stays a line, and does nothing to a terminal."""
    rows = [(b"a\nb.toml", "a\\nb.toml"), (b"\x1b[31m", "\\x1b[31m"), (b"a\tb\x7f", "a\\tb\\x7f"),
            (b"\xc2\x85", "\\xc2\\x85"), (b"\xc3\xa4\r", "\\xc3\\xa4\\r")]
    for missing, shown in rows:
        run = failed(shown, "No such file or directory (os error 2)")
        are_not_there(program, missing, run)


@case
def a_name_of_a_file_of_4095_octets(program):
    """The system's longest name, of a file that exists and of a missing file."""
    with tempfile.TemporaryDirectory() as folder:
        pathlib.Path(folder, "a.toml").write_bytes(OFFICE.read_bytes())
        for last, wanted in (("a.toml", ACCEPTED), ("b.toml", None)):
            head = folder + "/" * (1 + (4095 - len(folder) - len(last) - 1) % 2)
            name = head + "./" * ((4095 - len(head) - len(last)) // 2) + last
            expect(len(name), 4095)
            expect(run_of(program, "check", name), wanted or no_file(name.encode()))


def keeps_its_status(program, full, row):
    """A run ends by its row, also if a standard stream is full or closed."""
    (errors, status), instead, words, more = row
    expect((words, *run_of(program, *words, **more)[1:]), (words, errors, status))
    for broken in ({"errors": full}, {"errors": None, "closed": 2}):
        expect((words, run_of(program, *words, **more, **broken)[2]), (words, status))
    for broken in ({"out": full}, {"out": None, "closed": 1}):
        met = run_of(program, *words, **more, **broken)[1:]
        expect((words, *met), (words, *(instead or (errors, status))))


@case
def statuses_where_a_standard_stream_fails(program):
    """Each status, if standard error is closed or full, and if standard output is. A command with
    lines to print then fails with `device`, also for a script that is refused after some lines;
    without lines the status stays."""
    head, large = SCRIPT[:SCRIPT.index(b"---\n") + 4], SCRIPT + bytes(2**24 - len(SCRIPT))
    with (written(TOO_MANY_TRIES) as refused, Forwarder(program, [Server()]) as other,
          Forwarder(program, [Server()], turns=1) as once, open("/dev/full", "wb") as full):
        once.process.communicate()
        rows = [
            ((b"", 0), DEVICE, ["check", OFFICE], {}),
            ((b"", 0), DEVICE, ["serve", once.file.name, "1"], {}),
            ((b"", 0), DEVICE, ["replay"], {"given": SCRIPT}),
            (USAGE, None, ["other"], {}),
            ((b"fault 7\n", 2), None, ["check", refused.name], {}),
            ((b"fault 7\n", 2), None, ["serve", refused.name, "1"], {}),
            ((b"line 1\n", 3), None, ["replay"], {"given": head + b"x\n"}),
            ((b"line 3\n", 3), DEVICE, ["replay"], {"given": SCRIPT + b"x\n"}),
            ((b"memory\n", 4), None, ["replay"], {"given": large, "memory": 2**24}),
            (DEVICE, None, ["check", "/no/such/file"], {}),
            (DEVICE, None, ["serve", other.file.name, "1"], {}),
        ]
        for row in rows:
            keeps_its_status(program, full, row)


def interrupted(program, words, given=b"", interrupted_file=None):
    """A run's output and standard error, and its status, if a signal interrupts each second read or
    write of its standard streams and of a file."""
    with written(given) as standard_input, written(b"") as output:
        files = [standard_input.name, output.name, *filter(None, [interrupted_file])]
        paths = [word for file in files for word in ("-P", str(file))]
        calls = ["-e", "trace=read,write", "-e", "inject=read,write:error=EINTR:when=1+2"]
        strace = ["strace", "-qq", "-o", os.devnull, *paths, *calls]
        with open(standard_input.name, "rb") as read:
            ended = subprocess.run([*strace, program, *words], stdin=read, stdout=output,
                                   stderr=subprocess.PIPE)
        return pathlib.Path(output.name).read_bytes(), ended.stderr, ended.returncode


@case
def commands_that_signals_interrupt(program):
    """A configuration, a script and the printed lines are read and written to their ends."""
    need("strace")
    if said := interrupted("true", [])[1]:
        raise NotHere(said.decode().strip())
    expect(interrupted(program, ["check", OFFICE], b"", OFFICE), ACCEPTED)
    expect(interrupted(program, ["replay"], SCRIPT), (PRINTED, b"", 0))
    with written(listening_at(f"127.0.0.1:{free_port()}")) as served, written(b"") as large:
        run = interrupted(program, ["serve", served.name, "1"], b"", served.name)
        expect(run, (b"turns 1 lost 0\n", b"", 0))
        large.truncate(2**24 + 1)
        said = failed(large.name, "more than 16777216 octets")
        expect(interrupted(program, ["check", large.name], b"", large.name), said)


@case
def statuses_of_replay(program):
    rows = [
        (SCRIPT, (PRINTED, b"", 0)), (SCRIPT + b"x\n", (PRINTED, b"line 3\n", 3)),
        (b"version = 1\n", (b"", b"line 0\n", 3)), (b"version = 1\n---\n", (b"", b"fault 3\n", 2)),
        (SCRIPT + bytes(2**24 - len(SCRIPT) + 1), (b"", *DEVICE)),
    ]
    for script, wanted in rows:
        expect(run_of(program, "replay", given=script), wanted)
    large = SCRIPT + bytes(2**24 - len(SCRIPT))
    expect(run_of(program, "replay", given=large, memory=2**24), (b"", b"memory\n", 4))
    with open("/dev/full", "wb") as full:
        expect(run_of(program, "replay", given=SCRIPT, out=full), (None, *DEVICE))


@case
def what_check_cannot_know(program):
    """The command reads the file alone: each configuration of that table is accepted."""
    server = 'servers = ["192.0.2.53:53"]'
    rows = [
        (server, 'servers = ["127.0.0.1:53"]'),
        (server, 'servers = ["192.0.2.53:53", "192.0.2.53:53"]'),
        ("version = 1", "version = 1\nlimits = { ask_ms = 1000, deadline_ms = 500 }"),
        ("version = 1", "version = 1\nlimits = { tries = 16, ask_ms = 10000, deadline_ms = 500 }"),
        ('suffix = "."', 'suffix = "10.0.0.0"'),
        ('suffix = "."', 'suffix = "corp.example"'),
        ("version = 1", 'version = 1\nlisten = "192.0.2.1:53"'),
    ]
    for old, new in rows:
        expect(SMALLEST.count(old), 1)
        with written(SMALLEST.replace(old, new)) as file:
            expect((new, *run_of(program, "check", file.name)), (new, b"ok 1\n", b"", 0))


@case
def repeats_of_one_silent_name_use_up_the_questions(program):
    """Of equal questions each waits by itself: after 1,024 in 6 seconds a question of another route
    fails at once, and is answered once the tries for the silent name are over."""
    silent, limits = Server(never), {"tries": 4, "ask_ms": 1500, "deadline_ms": 8000}
    with (Forwarder(program, [silent], {"test": [Server()]}, **limits) as forwarder,
          forwarder.udp() as client):
        for n in range(1023):
            client.send(question("silent.example", identifier=n))
            time.sleep(0.001)
        forwarder.answers("other.test")
        client.send(question("silent.example", identifier=1023))
        time.sleep(0.1)
        with within(0.5, "it was not refused at once"):
            forwarder.fails("other.test")
        expect(code(client.recv(65535)), SERVFAIL)
        time.sleep(0.5)
        forwarder.answers("other.test")
        expect([query[12:] for query in silent.asked], [question("silent.example")[12:]] * 4)


@case
def with_the_limits_of_an_office_clients_get_a_reply_in_time(program):
    """With the first server silent the second answers after `ask_ms`; with both silent, clients get
    SERVFAIL after all tries, before they give up."""
    page = (TOP / "docs" / "ADMIN.md").read_text(encoding="utf-8")
    row = re.search(r"^\| office.*?\| (\d+) \| (\d+) \| (\d+) \|$", page, re.M)
    limits = dict(zip(("tries", "ask_ms", "deadline_ms"), map(int, row.groups())))
    all_tries = limits["tries"] * limits["ask_ms"]
    for second, least in ((Server(), limits["ask_ms"]), (Server(never), all_tries)):
        with Forwarder(program, [Server(never), second], **limits) as forwarder:
            began = time.monotonic()
            forwarder.fails() if least == all_tries else forwarder.answers()
            took = 1000 * (time.monotonic() - began)
            if not least <= took < 5000:
                raise AssertionError(f"a reply after {took:.0f} ms")
