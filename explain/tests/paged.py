"""Tests of --html: the links of the page, and its safety from strangers."""
import pathlib
import re
import tempfile
from html.parser import HTMLParser

import jobs
from making import asked
from office import FIRST, ONE, Scene
from repository.packing import ANY, CNAME, address, record

HERE = pathlib.Path(__file__).resolve().parent
CAPTURES = HERE / "captures"
TAGS = set("html head meta title style body h1 h2 p b br a span table tr th td ol li pre svg text rect".split(" "))
VOID = {"meta", "br"}
ATTRIBUTES = set(
    "lang charset http-equiv content name class id href style role width height viewbox x y text-anchor font-size "
    "fill".split(" ")
)


class Read(HTMLParser):
    """The content of a page: tags, attributes, links with text, and each line with its classes."""

    def __init__(self, text):
        super().__init__()
        self.open, self.faults, self.ids, self.links, self.items, self.cells = [], [], set(), [], [], [[]]
        self.verdict = re.search('class="verdict" style="color:(.*?)">(.*?)</p>', text).groups()
        self.feed(text)
        self.faults += [f"{tag} is open" for tag in self.open]

    def handle_starttag(self, tag, attributes):
        found = dict(attributes)
        if tag not in TAGS or not set(found) <= ATTRIBUTES or not found.get("href", "#").startswith("#"):
            self.faults.append(self.get_starttag_text())
        self.open += [] if tag in VOID else [tag]
        self.ids.update([found["id"]] if "id" in found else [])
        if tag == "a":
            self.links.append([found["href"][1:], ""])
        elif tag == "li":
            self.items.append([found["class"].split(" "), ""])
        elif tag == "tr":
            self.cells.append([])
        elif tag in ("td", "th"):
            self.cells[-1].append("")

    def handle_endtag(self, tag):
        if self.open[-1:] != [tag]:
            self.faults.append(f"</{tag}> after {self.open[-1:]}")
        else:
            self.open.pop()

    def handle_data(self, data):
        if "a" in self.open:
            self.links[-1][1] += data
        if "li" in self.open:
            self.items[-1][1] += data
        if self.open and ("td" in self.open or "th" in self.open):
            self.cells[-1][-1] += data

    def lines_of(self, text):
        """The lines to which the links with this text lead, each link for itself."""
        return [[line for classes, line in self.items if to in classes] for to, said in self.links if said == text]


def paged(program, capture, *options):
    """The page of a capture, standard output, and the status."""
    with tempfile.TemporaryDirectory() as folder:
        path = pathlib.Path(folder) / "page.html"
        printed, _, status = jobs.ran(CAPTURES, program, "--html", path, *options, "office.toml", capture)
        return Read(path.read_text()), printed, status, oct(path.stat().st_mode & 0o777)


def numbers_lead_to_lines(program):
    """Each count of a capture, by its scene, with its lines."""
    page, printed, status, mode = paged(program, "failures.pcap")
    lines = (CAPTURES / "failures.expected").read_text().splitlines()
    yield "printed", (printed.splitlines(), status, mode), (lines[6:], 0, "0o600")
    yield "faults", page.faults, []
    yield "links", [to for to, _ in page.links if to not in page.ids], []
    for row in (
        ["asked of a server", "1"],
        ["expired data", "1"],
        ["failed", "4"],
        ["8 all tries failed", "4", "6.5", "2,002"],
        ["192.0.2.1:53", "5", "56 %", "10", "10", "4", "2 silent, 1 port closed, 1 malformed"],
        ["odd.example.com", "A", "SERVFAIL, all tries failed", "2"],
        ["www.example.com", "A", "expired data", "1"],
        ["10.0.0.7", "5", "0 %", "4", "6.5"],
    ):
        yield row, row in page.cells, True
    # Four failed, with reason 8; four times the second server was asked, and so often each failed; and
    # of one client four failed.
    asked_both = [lines[place] for place in (1, 2, 4, 5)]
    wanted = sorted([lines[2:6], lines[2:6], asked_both, asked_both, asked_both, lines[1:5]])
    yield "4", sorted(page.lines_of("4")), wanted
    yield "2", page.lines_of("2"), [lines[4:6]]


def the_verdict_is_at_the_head(program):
    for capture, colour, said in (
        ("answers", "#2f7d32", "All answers are right: 9"),
        ("kept_before", "#b26a00", "No answer is different; open: 3 of 5"),
        ("codes_changed", "#c6402f", "Different answers: 3 of 4"),
    ):
        yield capture, paged(program, f"{capture}.pcap")[0].verdict, (colour, said)


def a_file_that_was_there(program):
    """A page takes the place of a longer file that others may read."""
    with tempfile.TemporaryDirectory() as folder:
        path = pathlib.Path(folder) / "page.html"
        path.write_text(100_000 * "old")
        path.chmod(0o644)
        jobs.ran(CAPTURES, program, "--html", path, "office.toml", "answers.pcap")
        yield "mode", (oct(path.stat().st_mode & 0o777), "old" in path.read_text()), ("0o600", False)


def a_page_of_a_few(program):
    """Filters choose what is in the page, and a folder may be its capture."""
    lines = (CAPTURES / "answers.expected").read_text().splitlines()
    with tempfile.TemporaryDirectory() as folder:
        (pathlib.Path(folder) / "seen.pcap0").write_bytes((CAPTURES / "answers.pcap").read_bytes())
        for options, wanted in ((["--name", "gone.example.com"], lines[2:4]), (["--at", "14:03:06"], lines[5:7])):
            page, _, status, _ = paged(program, folder, *options)
            yield options, ([line for _, line in page.items], page.faults, status), (wanted, [], 0)


def names_of_strangers(program):
    """Names that are HTML, in questions and as the target of an alias: they are text in the page."""
    scene = Scene()
    names = "<script>alert(1)</script>", "\"><img src=x onerror='alert(2)'>", "</li></ol><a href=http:x>&lt;"
    for number, label in enumerate(names):
        name = asked(f"{label}.example")
        alias = record(b"\xc0\x0c", CNAME, 60, bytes([len(label)]) + label.encode() + b"\x03two\0")
        target = address(60, 192, 0, 2, 80, owner=alias[12:])
        at = 1000 * number
        scene.question(at, ONE, number, name)
        port = scene.query(at + 0.2, FIRST, name)
        scene.reply(at + 10.2, FIRST, port, name, answers=[alias, target])
        scene.answer(at + 11, ONE, number, name, answers=[alias, target])
    with tempfile.TemporaryDirectory() as folder:
        capture = pathlib.Path(folder) / "<b>seen.pcap"
        capture.write_bytes(scene.pcap())
        page, _, status, _ = paged(program, capture)
    yield "faults", (page.faults, status), ([], 0)
    yield "lines", len(page.items), len(names)
    for label, (_, line) in zip(names, page.items):
        shown = re.sub(r"([^A-Za-z0-9_-])", r"\\\1", label)  # as RFC 1035 5.1 has it
        yield label, (f" {shown.replace(chr(92) + ' ', chr(92) + '032')}.example " in line, "two" in line), (True, True)


def much_is_bounded(program):
    """Of 40 names with three failed questions each 30 are listed, and 100 of the 120 lines, the most for a number. All
    come in a second, whose bar has 20 lines."""
    scene = Scene()
    for number in range(120):
        name = asked(f"n{number % 40}.example.com", ANY)
        scene.question(number, ONE, number, name)
        scene.answer(number + 0.1, ONE, number, name, 0x8184)
    with tempfile.TemporaryDirectory() as folder:
        capture = pathlib.Path(folder) / "seen.pcap"
        capture.write_bytes(scene.pcap())
        page, _, _, _ = paged(program, capture)
    yield "failures", sum(row[2:3] == ["NOTIMP, type or class not served"] for row in page.cells), 30
    yield "more", ["and 10 more", "", "", ""] in page.cells, True
    yield "lines", {len(lines) for lines in page.lines_of("120")}, {100}
    bar = next(lines for lines in page.lines_of("14:03:00 failed: 120"))
    yield "bar", (len(bar), len(page.items) < 120), (20, True)
