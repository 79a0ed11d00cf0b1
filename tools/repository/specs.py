"""The definitions of the spec files: comments, bodies, and which of them each file names."""
import functools
import itertools
import re

from repository.crates import CRATES
from repository.imports import USE, place

DEFINITION = re.compile(r"(?:(?:abbrev|unfoldable) pub|pub (?:record|data)) (?!use )(\S+)")


def comment_at(lines, end):
    """The lines of the comment whose last line is above the line `end`."""
    start = end
    while start and re.match(r"--(?! ----)", lines[start - 1]):
        start -= 1
    return lines[start:end]


def spoken(comment):
    """The text of a comment in one line."""
    return " ".join(" ".join(line[2:] for line in comment).split())


def sentence(text):
    """The first sentence of a text."""
    return (re.match(r".*?\.(?=\s|$)", text) or [text])[0].rstrip(".") + "."


def imports(text):
    """The imports of definitions: a crate, a path there, names, and a short name for the path."""
    return [(crate, path[1:], names, short)
            for crate, side, path, names, short in USE.findall(text) if side == "specs"]


def listed(names):
    """The names of a list with commas."""
    return [name.strip() for name in names.split(",") if name.strip()]


def words_of(text):
    """The words of a definition's text that may name another one, without fields of values."""
    qualified = set(re.findall(r"(?<![\w.])\w+\.\w+", text))
    plain = re.sub(r"(?<=[\w)])\.[\w.]+", "", text)
    return qualified | set(re.findall(r"[^\s(){}\[\],;.◌]+", plain))


def own_names(body, name):
    """The variables of a definition: arguments of its equations, and what binders name."""
    lines = re.findall(rf"^{re.escape(name)} (?!:).*", body, re.M)
    equations = " ".join(line.partition(" = ")[0] for line in lines)
    binders = re.findall(r"[({]([\w' ]+) :|λ ([\w' ]+)\.", body)
    return words_of(" ".join([equations, *(" ".join(each) for each in binders)]))


class Specs:
    """The spec files of all crates: definitions with their comments, their texts with and without
    these, first sentences of files, and what is passed on."""

    def __init__(self):
        self.comments, self.bodies, self.written = {}, {}, {}
        self.heads, self.texts, self.passed_on = {}, {}, {}
        for file in sorted(CRATES.glob("*/specs/*.antt")):
            self.read(file.read_text(encoding="utf-8"), file.parent.parent.name, file.stem)
        self.order = {key: at for at, key in enumerate(self.bodies)}

    def read(self, text, crate, module):
        lines = text.splitlines()
        self.texts[crate, module] = text
        head = list(itertools.takewhile(lambda line: line.startswith("--"), lines))
        self.heads[crate, module] = sentence(spoken(comment_at(head, len(head))))
        for at, line in enumerate(lines):
            if found := DEFINITION.match(line):
                key, comment = (crate, module, found[1]), comment_at(lines, at)
                block = list(itertools.takewhile(str.strip, lines[at:]))
                self.comments[key], self.written[key] = spoken(comment), comment + block
                self.bodies[key] = "\n".join(line for line in block
                                             if not line.lstrip().startswith("--"))
        passing = "\n".join(line for line in lines if re.match(r"(unfoldable )?pub use ", line))
        for of, path, names, _ in imports(passing):
            self.passed_on.update({(crate, module, name): (of, path) for name in listed(names)})

    def resolve(self, crate, path, name):
        """The definition of this name that the file has or passes on, if any."""
        key = (*place(crate, "specs", path), name)
        while key not in self.comments:
            to = self.passed_on.get(key)
            if to is None:
                return None
            key = (*place(to[0], "specs", to[1]), name)
        return key

    def has(self, crate, path, name):
        """Whether the file has or passes on this name, which may be a case of data."""
        key = (*place(crate, "specs", path), name)
        marks = r"(?:(?:abbrev|unfoldable|pub|record|data|pattern) )*"
        text = self.texts.get(key[:2])
        return text is None or key in self.passed_on or bool(
            re.search(rf"^ *{marks}{re.escape(name)}(?= )", text, re.M))

    def unknown(self):
        """The imported names that the named file of the repository does not have."""
        for (crate, module), text in self.texts.items():
            for of, path, names, _ in imports(text):
                for name in listed(names):
                    if not self.has(of, path, name.partition(" as ")[0]):
                        yield f"{crate}/specs/{module}.antt: Rattle.{of}.specs.{path}.{name}"

    def imported(self, text):
        """The definitions that a file imports, by the words that name them there."""
        found = {}
        for crate, path, names, short in imports(text):
            for word in listed(names):
                name, _, other = word.partition(" as ")
                found[(other or name).replace("◌", "")] = self.resolve(crate, path, name)
            if short:
                for qualified in re.findall(rf"\b{short}\.(\w+)", text):
                    found[f"{short}.{qualified}"] = self.resolve(crate, path, qualified)
        return {word: definition for word, definition in found.items() if definition}

    @functools.cache
    def named_in(self, crate, module):
        """The definitions that a spec file imports or has, by the words that name them there."""
        own = {key[2].replace("◌", ""): key for key in self.bodies if key[:2] == (crate, module)}
        return {**self.imported(self.texts[crate, module]), **own}

    @functools.cache
    def cited_by(self, key):
        """The definitions that the text of this one names. A file's own stand above."""
        named, body = self.named_in(*key[:2]), self.bodies[key]
        without_labels = re.sub(r"^  pub \w+ :|\b\w+ =(?= |$)", "", body, flags=re.M)
        words = words_of(without_labels) - own_names(body, key[2])
        cited = {named[word] for word in words if word in named} - {key}
        at = self.order[key]
        return {other for other in cited if other[:2] != key[:2] or self.order[other] < at}

    def reached_by(self, keys, without=()):
        """These definitions and all that they cite, directly or not; none of these crates, nor what
        only they cite."""
        found, left = set(), list(keys)
        while left:
            key = left.pop()
            if key not in found and key[0] not in without:
                found.add(key)
                left += self.cited_by(key)
        return found

    def signature(self, key):
        """What the name of a definition is followed by, up to the first field, case or equation."""
        end = rf"\n{re.escape(key[2])} |\bwhere\b|\Z"
        return re.search(rf"{re.escape(key[2])}(.*?)(?:{end})", self.bodies[key], re.S)[1].strip()

    def computes(self, key):
        """Whether the definition is a function that yields a value: no type, no statement."""
        return not self.signature(key).endswith("Type 0")

    def states(self, key):
        """Whether the definition is a statement about values: no function, no type of data."""
        return not self.computes(key) and self.signature(key) != ": Type 0"
