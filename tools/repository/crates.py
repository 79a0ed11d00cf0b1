"""The crates of crates.txt, by layer: purpose, used crates, and crates passed on."""
import functools
import pathlib
import re

TOP = pathlib.Path(__file__).resolve().parent.parent.parent
CRATES = TOP / "crates"


def layers():
    """The headings of crates.txt in order, each with its crates and the crates below."""
    found = {}
    for line in (TOP / "crates.txt").read_text(encoding="utf-8").splitlines():
        if line.startswith("#"):
            layer = found.setdefault(line[1:].strip(), {})
        elif ":" in line:
            name, _, used = line.partition(":")
            layer[name] = used.split()
    return found


@functools.cache
def uses():
    """The used crates of each crate, the toolchain's too. Used crates come first."""
    return {name: used for crates in layers().values() for name, used in crates.items()}


def passed_on(name):
    """The crates whose items, definitions or lemmas a crate passes on to its callers."""
    def text(part):
        file = CRATES / name / part
        return file.read_text(encoding="utf-8") if file.is_file() else ""

    items = re.findall(r"^pub use (\w+)\b", text("src/lib.rt"), re.M)
    ghosts = text("specs/Lib.antt") + "\n" + text("proofs/Lib.antt")
    modules = re.findall(r"^pub use Rattle\.\S+ as (\w+)$", ghosts, re.M)
    crates = [*items, *(re.sub(r"\B(?=[A-Z])", "_", module).lower() for module in modules)]
    return [crate for crate in uses() if crate in crates and crate != name]


@functools.cache
def paths(name):
    """The number of paths through crates.txt that begin at a crate, the empty path too."""
    return 1 + sum(paths(used) for used in uses()[name] if used in uses())


def readme(name):
    file = CRATES / name / "README.md"
    return file.read_text(encoding="utf-8") if file.is_file() else ""


def purpose(name):
    """The first sentence of the crate's README, in one line."""
    paragraph = re.sub(r"\A#[^\n]*\n+", "", readme(name)).partition("\n\n")[0]
    sentence = re.match(r".*?\.(?=\s|\Z)", paragraph, re.S)
    return " ".join((sentence[0] if sentence else paragraph).split())
