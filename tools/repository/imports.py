"""The `use` lines of .rt and .antt files, and the modules to which their paths lead.

A crate passes modules of lower crates on by lines of its Lib.antt: with
`pub use Rattle.trust_rank.specs as TrustRank` in record_cache, the path
`Rattle.record_cache.specs.TrustRank.Slots` leads to the file Slots.antt of trust_rank. A crate may
pass on what was passed on to it.
"""
import functools
import re

from repository.crates import CRATES, uses

USE = re.compile(r"\buse Rattle\.(\w+)\.(specs|proofs)((?:\.[\w+#-]+)*)(?:\.\{([^}]*)\})?"
                 r"(?: as (\w+))?;?$", re.M)
# Modules that the toolchain makes of a crate's types and contracts.
MADE = ("declared", "contracts")


@functools.cache
def passed_on(crate, side):
    """The modules that a crate's Lib.antt passes on: by each name, a crate and a path there."""
    file = CRATES / crate / side / "Lib.antt"
    text = file.read_text(encoding="utf-8") if file.is_file() else ""
    lines = "\n".join(re.findall(r"^(?:unfoldable )?pub use .*", text, re.M))
    return {short or path.rpartition(".")[2]: (of, path[1:])
            for of, to, path, names, short in USE.findall(lines) if to == side and not names}


def place(crate, side, path):
    """The crate, and the path there, at the end of a path through passed-on modules."""
    seen = set()
    while (crate, path) not in seen:
        seen.add((crate, path))
        first, _, rest = path.partition(".")
        of, to = passed_on(crate, side).get(first, (crate, first))
        crate, path = of, ".".join(filter(None, (to, rest)))
    return crate, path


def is_source(crate, name):
    """Whether the name is a module of a crate's sources, or an item of their root file."""
    src = CRATES / crate / "src"
    roots = (src / root for root in ("lib.rt", "main.rt"))
    return (src / f"{name}.rt").is_file() or (src / name).is_dir() or any(
        re.search(rf"\b{re.escape(name)}\b", root.read_text(encoding="utf-8"))
        for root in roots if root.is_file())


def leads(crate, side, path):
    """Whether a path leads to a file of definitions or proofs, to what the toolchain makes of
    sources, or to a library of the toolchain."""
    crate, path = place(crate, side, path)
    parts = path.split(".")
    files = ("/".join(parts[:count]) for count in range(1, len(parts) + 1))
    if crate not in uses() or not path:
        return True
    if any((CRATES / crate / side / f"{file}.antt").is_file() for file in files):
        return True
    return parts[0] in MADE if side == "specs" else is_source(crate, parts[0])


def leading_nowhere():
    """The paths of all `use` lines that lead nowhere, each after its file."""
    for file in sorted(file for ending in ("antt", "rt") for crate in uses()
                       for part in ("src", "specs", "proofs")
                       for file in (CRATES / crate / part).rglob(f"*.{ending}")):
        for of, side, path, _, _ in USE.findall(file.read_text(encoding="utf-8")):
            if path and of in uses() and not leads(of, side, path[1:]):
                yield f"{file.relative_to(CRATES)}: Rattle.{of}.{side}{path}"
