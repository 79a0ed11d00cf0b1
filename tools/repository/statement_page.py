"""The page of the statement: all definitions that the headline reaches."""
import pathlib
import re
import sys

from repository.crates import CRATES, TOP, purpose, uses
from repository.generated import wrapped
from repository.specs import words_of
from repository.statement import HEADLINE, Statement, parts_of, sources

MARK = "-- [shared]"
READING, THEOREM = "READING_SPECS.md", "THEOREM.md"
HEAD = pathlib.Path(__file__).with_name("statement_head.txt")


def link(file):
    return f"[{file[0]}/{file[1]}](../crates/{file[0]}/specs/{file[1]}.antt)"


def parts(statement):
    """The parts of the page from above: each crate, with its definitions."""
    for crate in dict.fromkeys(key[0] for key in statement.page):
        yield crate, [key for key in statement.page if key[0] == crate]


def table(head, rows):
    lines = ["| " + " | ".join(head) + " |", "|---" + "|--:" * (len(head) - 1) + "|"]
    cells = ([cell if isinstance(cell, str) else f"{cell:,}" for cell in row] for row in rows)
    return "\n".join(lines + [f"| {' | '.join(row)} |" for row in cells])


def table_of_parts(statement):
    """The size of each part, and of all parts down to it."""
    rows, so_far = [], 0
    for crate, keys in parts(statement):
        so_far += statement.lines(keys)
        shared = len(statement.shared.intersection(keys))
        row = f"[`{crate}`](#{crate})", len(keys), shared, statement.lines(keys), so_far
        rows.append(row)
    return table(("Part", "Definitions", "of them shared", "Lines", "Lines down to here"), rows)


def table_of_fields(statement):
    """The size of what each field of the headline reaches."""
    specs, rows = statement.specs, []
    named = specs.named_in(*statement.top[:2])
    for field, text in re.findall(r"^  pub (\w+) : (.*)", specs.bodies[statement.top], re.M):
        cited = {named[word] for word in words_of(text) if word in named} & statement.keys
        if cited:
            reached = specs.reached_by(cited)
            names = ", ".join(f"[`{key[2]}`](#{key[0]}{key[1].lower()})" for key in sorted(cited))
            shared = len(reached & statement.shared)
            rows.append((f"`{field}`: {names}", len(reached), shared, statement.lines(reached)))
    return table(("Field", "Definitions", "of them shared", "Lines"), rows)


def names(statement):
    """The lines on names with two definitions."""
    comments = statement.specs.comments
    for name, keys in statement.of_one_name().items():
        each = "; ".join(f"in {link(key[:2])}, {comments[key]}" for key in keys)
        yield wrapped(f"- `{name}`: {each}".rstrip(".") + ".", "", "  ")


def declaration(crate, module, name):
    """The link of a type of the code, and its declaration with comments."""
    files = (f"{module}.rt", f"{module}/mod.rt")
    file = next(file for file in files if (CRATES / crate / "src" / file).is_file())
    text = (CRATES / crate / "src" / file).read_text(encoding="utf-8")
    above, kind = r"(?:///[^\n]*\n|#\[[^\n]*\n)*", r"(?:pub(?:\(\w+\))? )?(?:struct|enum)"
    found = re.search(rf"^({above}{kind} {name}\b.*?^}})\n", text, re.M | re.S)
    if not found:
        sys.exit(f"crates/{crate}/src/{file} declares no type {name}")
    shown = [line for line in found[1].splitlines() if not line.strip().startswith("#[")]
    return f"[{crate}/{module}](../crates/{crate}/src/{file})", "\n".join(shown)


def code(statement, file):
    """The definitions of a file, each with its comment and marks."""
    twice = statement.of_one_name()
    for key in statement.of_file(file):
        marks = [MARK] if key in statement.shared else []
        if key[2] in twice:
            others = (f"{other[0]}/{other[1]}" for other in twice[key[2]] if other != key)
            marks.append(f"-- [not the {key[2]} of {', '.join(others)}]")
        marks += [f"-- [{name} is {word}]" for name, word in statement.other_names(key)]
        yield "\n".join(marks + statement.specs.written[key])


def part(statement, crate, keys):
    """A part of the page: the crate's purpose, which words are cited above, and the files."""
    cited = ", ".join(f"`{key[2]}`" for key in statement.cited_above(keys))
    yield f"## `{crate}`"
    yield wrapped(purpose(crate) + (f" Cited above: {cited}." if cited else ""))
    for file in dict.fromkeys(key[:2] for key in keys):
        definitions = "\n\n".join(code(statement, file))
        yield f"### {link(file)}\n\n{wrapped(statement.specs.heads[file])}"
        yield f"```agda\n{definitions}\n```"


def head(statement):
    """The page down to its first part."""
    keys, shared = statement.keys, statement.shared
    functions = [key for key in shared if statement.specs.computes(key)]
    text = HEAD.read_text(encoding="utf-8").format(
        headline=HEADLINE, reading=READING, mark=MARK, files=len(statement.files), count=len(keys),
        lines=f"{statement.lines(keys):,}", shared=len(shared), functions=len(functions),
        statements=len(shared) - len(functions), shared_lines=f"{statement.lines(shared):,}")
    yield "# The statement"
    yield from map(wrapped, text.strip().split("\n\n"))
    yield table_of_parts(statement)
    yield f"What each claim of `{HEADLINE}` reaches by itself, down to octets:"
    yield table_of_fields(statement)
    lines = list(names(statement))
    if lines:
        yield "**Two definitions of one name**: above each is a mark `-- [not the ..]`."
        yield "\n".join(lines)


def foot(statement):
    """The types of the code, and the words of the library."""
    yield "## Types of the code"
    yield wrapped(
        "The definitions above name these types of the program. There a number is a natural "
        "number, octets are a list of numbers, and a name is the list of its labels.")
    for each in statement.types_of_code():
        at, shown = declaration(*each)
        yield f"### {at}\n\n```rust\n{shown}\n```"
    words = ", ".join(f"`{' '.join(parts_of(name))}`" for name in statement.of_library())
    yield "## Words of the toolchain's library"
    yield wrapped(f"[{READING}]({READING}#words-of-the-toolchains-library) explains them: {words}.")


def unread(statement):
    """The library's words without a place in the page on reading, and the page's invented lines."""
    page = (TOP / "docs" / READING).read_text(encoding="utf-8").replace("\\|", "|")
    text = " ".join(re.findall(r"`([^`\n]+)`", page))
    known = words_of(text) | set(text.split())
    for name in statement.of_library():
        if not set(parts_of(name)) <= known:
            yield f"docs/{READING} does not explain {name}"
    texts = [text for crate in uses() for text in sources(crate)]
    files = "".join([*statement.specs.texts.values(), *texts])
    for line in re.findall(r"^\| .* \| `([^`]+)` \|$", page, re.M):
        if line not in files:
            yield f"docs/{READING}: no file has the line {line}"


def unshared(statement):
    """The names in the theorem's table of shared definitions that are not shared."""
    page = (TOP / "docs" / THEOREM).read_text(encoding="utf-8")
    rows = re.search(r"^\| Definitions \|.*\n((?:\|.*\n)+)", page, re.M)[1].splitlines()
    shared = {key[2] for key in statement.shared}
    for name in re.findall(r"`(\w+)`", " ".join(row.split("|")[1] for row in rows)):
        if name not in shared:
            yield f"docs/{THEOREM} says that {name} is shared"


def written(specs):
    """The page, and what hinders its reading."""
    statement = Statement(specs)
    texts = [*head(statement)]
    for crate, keys in parts(statement):
        texts += part(statement, crate, keys)
    texts += foot(statement)
    return "\n\n".join(texts) + "\n", [*unread(statement), *unshared(statement)]
