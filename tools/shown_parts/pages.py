"""Reads commands, files and configurations out of the pages: Markdown and mdoc."""
import dataclasses
import pathlib
import re

TOP = pathlib.Path(__file__).resolve().parent.parent.parent
MANUALS = ("forwarder.8", "forwarder.toml.5", "forwarder-explain.1", "forwarder-import.1",
           "forwarder-advise.1")
FENCE = re.compile(r"^( *)```(\w*)\n(.*?)^ *```$", re.M | re.S)
LITERAL = re.compile(r"^\.Bd -literal[^\n]*\n(.*?)^\.Ed$|^\.Dl ([^\n]*)$", re.M | re.S)
# The first words of a command in a manual; other literal text is output or configuration.
FIRST = re.compile(r"(sudo |forwarder|tcpdump|systemctl|dig |kill|sleep)")
CONFIGURATION = re.compile(r"^version = [12]$.*^\[\[route\]\]$", re.M | re.S)


@dataclasses.dataclass
class Step:
    """What a page has its reader do: run a command, write a file, or check a configuration."""

    page: str
    line: int
    kind: str
    text: str
    shown: list = dataclasses.field(default_factory=list)

    def __str__(self):
        first, _, more = self.text.partition("\n")
        what = "" if self.kind == "run" else f"{self.kind} "
        return f"{self.page}:{self.line}: {what}{first}{' ..' if more else ''}"


def commands(lines):
    """Each command without comment, with the first line's number; continued lines are joined."""
    at, begun = 0, []
    for number, line in enumerate(lines):
        at = at if begun else number
        line = re.sub(r"\s+# .*$", "", line).rstrip()
        if not line or line.startswith("#"):
            continue
        begun.append(line)
        in_loop = begun[0].startswith("while ") and not line.startswith("done")
        if not in_loop and not line.endswith(("\\", "|", "&&")):
            yield at, "\n".join(begun)
            begun = []


def console(lines):
    """The commands behind `$ `, each with the lines that it prints."""
    found = []
    for number, line in enumerate(lines):
        if line.startswith("$ "):
            found.append((number, line[2:], []))
        elif found:
            found[-1][2].append(line)
    return found


def named_file(before):
    """The file below /etc that the paragraph in front of a block names: it has this content."""
    paragraph = before.rstrip().rpartition("\n\n")[2]
    found = re.findall(r"`(/etc/[\w./@-]+\.\w+)`", paragraph)
    return found[0] if found else None


def fences(page, text):
    """The steps of a page in Markdown."""
    for block in FENCE.finditer(text):
        indent, kind, inside = block.groups()
        lines = [line.removeprefix(indent) for line in inside.splitlines()]
        first = text[:block.start(3)].count("\n") + 1
        content, file = "\n".join(lines) + "\n", named_file(text[:block.start()])
        refused = text[block.end():].startswith("\n\n```text\n")
        if kind == "sh":
            yield from (Step(page, first + at, "run", each) for at, each in commands(lines))
        elif kind == "console":
            yield from (Step(page, first + at, "run", *each) for at, *each in console(lines))
        elif file and kind in ("toml", "ini", "text"):
            yield Step(page, first, "write", file, [content])
        elif kind == "toml" and CONFIGURATION.search(content) and not refused:
            yield Step(page, first, "check", "a configuration", [content])


def unfolded(lines):
    """The lines of output, with what is set in belonging to the line before."""
    return re.sub(r"\n +", " ", "\n".join(lines)).splitlines()


def literals(page, text):
    """The steps of a page in mdoc."""
    for block in LITERAL.finditer(text):
        inside = (block[1] or block[2]).replace("\\e", "\\").replace("\\&", "")
        first = text[:block.start()].count("\n") + (2 if block[1] else 1)
        if CONFIGURATION.search(inside):
            yield Step(page, first, "check", "a configuration", [inside])
        elif inside.startswith("$ "):
            for at, each, shown in console(inside.splitlines()):
                yield Step(page, first + at, "run", each, unfolded(shown))
        elif FIRST.match(inside):
            lines = inside.splitlines()
            yield from (Step(page, first + at, "run", each) for at, each in commands(lines))


def configurations():
    """The examples, and the rows of docs/ADMIN.md's table of limits, as configurations to check."""
    for file in [*sorted((TOP / "examples").glob("*.toml")), TOP / "packaging" / "forwarder.toml"]:
        text = file.read_text(encoding="utf-8")
        yield Step(str(file.relative_to(TOP)), 1, "check", "a configuration", [text])
    page = "docs/ADMIN.md"
    smallest = (TOP / "examples" / "smallest.toml").read_text(encoding="utf-8")
    lines = (TOP / page).read_text(encoding="utf-8").splitlines()
    keys = re.findall(r"`(\w+)`", next(line for line in lines if line.startswith("| Network |")))
    for at, line in enumerate(lines, 1):
        values = re.findall(r" (\d+) (?=\|)", line)
        if line.startswith("| ") and len(values) == len(keys):
            limits = ", ".join(map(" = ".join, zip(keys, values)))
            text = smallest.replace("version = 1\n", f"version = 1\nlimits = {{ {limits} }}\n")
            yield Step(page, at, "check", "limits", [text])


def markdown():
    """The pages in Markdown that are written by hand."""
    folders = ("*.md", "docs/*.md", "crates/*/README.md", "packaging/*.md", "explain/*.md",
               "explain/trials/*.md", "import/*.md", "tools/**/*.md")
    return sorted(str(file.relative_to(TOP)) for folder in folders for file in TOP.glob(folder))


def steps():
    """The steps of each page that has any, in the order of the page."""
    found = {}
    for page in markdown():
        found[page] = list(fences(page, (TOP / page).read_text(encoding="utf-8")))
    for name in MANUALS:
        page = f"packaging/{name}"
        found[page] = list(literals(page, (TOP / page).read_text(encoding="utf-8")))
    found["examples"] = list(configurations())
    return {page: each for page, each in found.items() if each}
