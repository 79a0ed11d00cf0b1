"""The definitions that the headline reaches, in the order of a reader's need, and the definitions
that code or table share with claims, by the contracts that cite them."""
import collections
import functools
import re
import sys

from repository.crates import CRATES, uses
from repository.imports import place
from repository.specs import imports, listed, words_of

HEADLINE = "ServesTruly"
TABLE = "step_table"
CLAUSE = re.compile(r"\b(?:requires|ensures|invariant|view)\b[^\n]*\{.*?\}\s*$", re.M | re.S)


def sources(crate):
    """The texts of a crate's code, without comments."""
    for file in sorted((CRATES / crate).glob("src/**/*.rt")):
        yield re.sub(r"//[^\n]*", "", file.read_text(encoding="utf-8"))


@functools.cache
def of_laws():
    """The crates of claims and laws: no line of their code is a closing brace alone, so that no
    function there has a body."""
    return {crate for crate in uses() if crate != TABLE
            and not any(re.search("^}$", text, re.M) for text in sources(crate))}


def common(specs):
    """The definitions that contracts of code or table reach, not by claims or laws alone."""
    cited = {key for key in specs.bodies if key[0] == TABLE}
    for crate in uses():
        for text in sources(crate) if crate not in of_laws() else ():
            named = specs.imported(text)
            words = words_of(" ".join(CLAUSE.findall(text)))
            cited.update(named[word] for word in words if word in named)
    return specs.reached_by(cited, of_laws())


def computed(specs):
    """The functions among these."""
    return {key for key in common(specs) if specs.computes(key)}


class Statement:
    """The headline, all reached definitions, the files in order, and the shared definitions."""

    def __init__(self, specs):
        self.specs = specs
        found = [key for key in specs.bodies if key[2] == HEADLINE]
        if len(found) != 1:
            sys.exit(f"{len(found)} definitions have the name {HEADLINE}, and one is looked for")
        self.top = found[0]
        self.keys = specs.reached_by(found)
        values = {key for key in self.keys if specs.computes(key) or specs.states(key)}
        self.shared = values & common(specs)
        self.files = self.in_order()
        self.page = [key for file in self.files for key in self.of_file(file)]
        self.check_order()

    def of_file(self, file):
        """The definitions of a file, the last first."""
        return [key for key in reversed(self.specs.bodies) if key[:2] == file and key in self.keys]

    def words(self, file):
        """The words of these definitions of a file."""
        return {word for key in self.of_file(file) for word in words_of(self.specs.bodies[key])}

    def cited_files(self, file):
        """The further files that a file cites, in the order of its definitions on the page."""
        cited = {}
        for key in self.of_file(file):
            body = self.specs.bodies[key]
            keys = self.specs.cited_by(key)
            for other in sorted(keys, key=lambda each: (body.find(each[2]), each)):
                cited.setdefault(other[:2])
        return [other for other in cited if other != file]

    def in_order(self):
        """The files: the highest crate first, in a crate each file after all that cite it."""
        seen, done = set(), []

        def visit(file):
            seen.add(file)
            for other in reversed(self.cited_files(file)):
                if other not in seen:
                    visit(other)
            done.append(file)

        visit(self.top[:2])
        crates = list(uses())
        return sorted(reversed(done), key=lambda file: -crates.index(file[0]))

    def check_order(self):
        """Ends the program if a word of the page is defined above one of its uses."""
        places = {key: at for at, key in enumerate(self.page)}
        uses_of = ((key, other) for key in self.page for other in self.specs.cited_by(key))
        above = [f"{other[2]} of {key[2]}" for key, other in uses_of if places[other] < places[key]]
        if above:
            sys.exit(f"these words are defined above a use: {', '.join(above)}")

    def lines(self, keys):
        """How many lines these definitions have, without comments and empty lines."""
        texts = (self.specs.bodies[key].splitlines() for key in keys)
        return sum(1 for lines in texts for line in lines if line.strip())

    def cited_above(self, keys):
        """Those of a part's definitions that are cited before the part begins."""
        before = self.page[:self.page.index(keys[0])]
        cited = {other for key in before for other in self.specs.cited_by(key)}
        return [key for key in keys if key in cited]

    def of_one_name(self):
        """The names with several definitions on the page, each with these."""
        found = collections.defaultdict(list)
        for key in self.page:
            found[key[2]].append(key)
        return {name: keys for name, keys in found.items() if len(keys) > 1}

    def other_names(self, key):
        """The names that the definition's file gives to words of others, each with the word."""
        words = words_of(self.specs.bodies[key])
        for crate, path, names, short in imports(self.specs.texts[key[:2]]):
            for name, other in re.findall(r"(\S+) as (\w+)", names):
                if other in words:
                    yield other, f"{name} of {crate}/{path}"
            for word in sorted(words if short else ()):
                if word.startswith(f"{short}."):
                    of = path.removesuffix(".TheVariants").rpartition(".")[2]
                    yield word, f"{word.removeprefix(f'{short}.')} of {crate}/{of}"

    def of_library(self):
        """The words of the toolchain's library that these definitions use, in order."""
        found = set()
        for file in self.files:
            words = self.words(file)
            for crate, _, names, _ in imports(self.specs.texts[file]):
                each = listed(names) if crate == "std" else ()
                found.update(name for name in each if set(parts_of(name)) <= words)
        return sorted(found)

    def types_of_code(self):
        """The types of the code that these definitions name: crate, module and name of each."""
        found, crates = set(), list(uses())
        for file in self.files:
            for crate, path in self.paths_in_use(file):
                parts = path.removesuffix(".TheVariants").split(".")
                if parts[0] == "declared":
                    found.add((crate, "/".join(parts[1:-1]) or "lib", parts[-1]))
        return sorted(found, key=lambda each: (-crates.index(each[0]), each))

    def paths_in_use(self, file):
        """The crate and path of each import whose names these definitions of a file use."""
        words = self.words(file)
        for crate, path, names, short in imports(self.specs.texts[file]):
            at = place(crate, "specs", path)
            for name in listed(names):
                if name.rpartition(" as ")[2] in words:
                    yield self.specs.passed_on.get((*at, name), at)
            if short and any(word.startswith(f"{short}.") for word in words):
                yield at


def parts_of(name):
    """The written parts of a name, without the places of its arguments."""
    return [part.strip() for part in name.split("◌") if part.strip()]
