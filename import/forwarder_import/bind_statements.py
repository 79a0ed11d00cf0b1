"""The statements of named.conf: words, blocks in braces, and a semicolon at the end."""
import re
from dataclasses import dataclass, field

from .files import Line, Refused, shown, unreadable

TOKEN = re.compile(
    r"""
    (?P<comment> /\*.*?\*/ | //[^\n]* | \#[^\n]* )
    | "(?P<text> (?: [^"\\] | \\. )* )"
    | (?P<open> /\* | " )
    | (?P<mark> [{};] )
    | (?P<word> [^\s{};"]+ )
    """, re.S | re.X)

# Statements that go on after a block.
GOING_ON = {"inet", "unix", "response-policy", "deny-answer-addresses", "deny-answer-aliases"}


@dataclass
class Statement:
    """Words, and the statements of the following block, if any."""

    line: Line
    words: list[str] = field(default_factory=list)
    blocks: list[list] = field(default_factory=list)

    @property
    def block(self):
        """The statements in the braces."""
        if not self.blocks:
            raise Refused("a block in braces is missing")
        return self.blocks[0]

    def value(self):
        if len(self.words) != 2:
            raise Refused(f"{self.words[0]} has to have one value")
        return self.words[1]


def tokens_of(lines):
    """Marks and words with their lines; quoted words are never marks."""
    text = "\n".join(line.text for line in lines)
    number, before = 0, 0
    for found in TOKEN.finditer(text):
        number, before = number + text.count("\n", before, found.start()), found.start()
        line = lines[number]
        if found["open"]:
            what = "comment" if found["open"] == "/*" else "quotation mark"
            raise unreadable(line, f"the {what} is not closed")
        if found["mark"]:
            yield found["mark"], None, line
        elif found["word"] or found["text"] is not None:
            yield None, found["word"] or found["text"], line


class Parser:
    """Makes statements of tokens. Open blocks are on a stack, so depth needs no recursion."""

    def __init__(self):
        self.top = []
        self.open = []  # of each block: the statements around, and the statement before the brace
        self.block, self.statement = self.top, None

    def take(self, mark, word, line):
        if word is not None:
            self.word(word, line)
        elif self.statement is None and mark != "}":
            if mark == "{":
                raise unreadable(line, "there is no word before {")
        elif mark == "{":
            self.open.append((self.block, self.statement))
            self.statement.blocks.append([])
            self.block, self.statement = self.statement.blocks[-1], None
        elif mark == ";":
            self.statement = None
        else:
            self.close(line)

    def word(self, word, line):
        """Takes a word, the first of a statement or a further word."""
        if self.statement is None:
            self.statement = Statement(Line(line.path, line.number))
            self.block.append(self.statement)
        elif self.statement.blocks and self.statement.words[0] not in GOING_ON:
            raise unreadable(line, f"a semicolon is missing after }}, before {shown(word)}")
        self.statement.words.append(word)

    def close(self, line):
        if self.statement is not None:
            raise unreadable(line, "a semicolon is missing before }")
        if not self.open:
            raise unreadable(line, "there is no { for this }")
        self.block, self.statement = self.open.pop()

    def end(self):
        if self.open:
            line = self.open[-1][1].line
            raise unreadable(line, f"the brace of {self.open[-1][1].words[0]} is not closed")
        if self.statement is not None:
            line = self.statement.line
            raise unreadable(line, f"the semicolon of {self.statement.words[0]} is missing")
        return self.top


def statements_of(lines):
    """The statements of a file, with their words as the text of the line."""
    parser = Parser()
    for token in tokens_of(lines):
        parser.take(*token)
    statements = parser.end()
    todo = list(statements)
    while todo:
        each = todo.pop()
        each.line = Line(each.line.path, each.line.number,
                         " ".join([*each.words, *["{ .. }"] * len(each.blocks)]))
        todo += [inner for block in each.blocks for inner in block]
    return statements
