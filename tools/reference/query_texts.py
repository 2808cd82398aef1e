"""Reads the text of a query, or tells its first fault, by docs/formats/queries.md alone.

`read(text)` gives the trees of the lines of a text: a Test, or a list that begins with `and`, `or` or `not`, with trees
behind it. Bytes are told by their places in the whole text.
"""

import os
import re
import typing

from decimals import parts_of
from patterns import Bad, Pattern
from taglists import tags_of

BLANKS = b" \t\r"
ENDED = rb"(?=[ \t\r()\"']|\Z)"  # behind a word that is no name
MOST_OPEN, MOST_LEVEL, MOST_FIELD = 64, 9999, 9999
SIGNS = [b"==", b"!=", b"<=", b">=", b"!~", b"<", b">", b"~"]  # one that begins another stands behind it
JOINING, COMPARING = [b"and", b"or"], [b"eq", b"ne"]
NUMERIC = {b"==", b"!=", b"<", b"<=", b">", b">="}


class Fault(Exception):
    """The first fault of a text: its kind, and its place."""

    def __init__(self, kind, at):
        super().__init__(f"{kind} at {at}")


class Test(typing.NamedTuple):
    """A criterion, and an operator with the bytes of its operand, or neither."""

    level: int | None
    sign: bytes  # behind the level: a plus, a minus, or nothing
    names: list
    prefix: bytes | None
    field: int | None
    operator: bytes | None
    operand: bytes | None


class Line:
    """A line of a text, and how much of it was read."""

    def __init__(self, text, at, end):
        self.text, self.at, self.end = text, at, end

    def take(self, pattern):
        """Reads what the pattern matches here; None where it doesn't match."""
        found = re.compile(pattern).match(self.text, self.at, self.end)
        self.at = found.end() if found else self.at
        return found

    def skip(self):
        """Passes over blanks; the place behind them."""
        self.take(rb"[ \t\r]*")
        return self.at

    def word(self, word):
        """Whether this word stands behind blanks; then it is read."""
        self.skip()
        return self.take(word + ENDED) is not None

    def stuck(self, words):
        """Fails where one of the words could stand, behind the bytes that the longest of them has here."""
        here = self.text[self.skip() : self.end]
        alike = max(len(os.path.commonprefix([here, word])) for word in words)
        raise Fault("syntax", self.at + alike)

    def whole(self):
        """The tree of all of the line."""
        tree = self.query(0)
        if self.skip() < self.end:
            self.stuck(JOINING)
        return tree

    def query(self, opened):
        """Conjunctions with `or` between them, while so many parentheses and `not`s are open."""
        trees = [self.conjunction(opened)]
        while self.word(b"or"):
            trees.append(self.conjunction(opened))
        return ["or", *trees]

    def conjunction(self, opened):
        trees = [self.unary(opened)]
        while self.word(b"and"):
            trees.append(self.unary(opened))
        return ["and", *trees]

    def unary(self, opened):
        begun = self.skip()
        if self.take(rb"\(|not" + ENDED):
            if opened == MOST_OPEN:
                raise Fault("too deep", begun)
            if self.text[begun : self.at] == b"not":
                return ["not", self.unary(opened + 1)]
            tree = self.query(opened + 1)
            self.skip()
            if not self.take(rb"\)"):
                self.stuck(JOINING)
            return tree
        if self.take(rb"(?:and|or|eq|ne)" + ENDED):
            raise Fault("syntax", self.at)  # a longer name could begin so
        return TestReader(self).read()


class TestReader:
    """Reads a test, and keeps the faults that it may have, until it is known where it stops."""

    def __init__(self, line):
        self.line, self.unknown, self.others = line, [], []

    def read(self):
        level, sign = self.level() if self.line.take(rb"\{") else (None, b"")
        names = self.names()
        prefix = self.operand()[0] if self.line.take(rb":") else None
        field = self.field() if self.line.take(rb"\[") else None
        operator = self.operator()
        operand = self.judged(operator) if operator else None
        if operator is None and self.line.take(rb"[=!]"):
            self.stop()  # an operator of two bytes could begin so
        self.judge()
        if operator is None and self.is_cut_word():
            self.line.stuck([*JOINING, *COMPARING])
        return Test(level, sign, names, prefix, field, operator, operand)

    def judge(self):
        """Fails with the first fault that was kept, of a name before all others."""
        for fault in self.unknown + self.others:
            raise fault

    def stop(self):
        """Fails where the test can't go on."""
        self.judge()
        raise Fault("syntax", self.line.at)

    def need(self, pattern):
        found = self.line.take(pattern)
        if found is None:
            self.stop()
        return found[0]

    def number(self, least, most):
        """A number in digits, which is a fault where it is out of range."""
        begun = self.line.at
        number = int(self.need(rb"[0-9]+"))
        if not least <= number <= most:
            self.others.append(Fault("number", begun))
        return number

    def level(self):
        number = self.number(0, MOST_LEVEL)
        sign = self.need(rb"[+-]?")
        self.need(rb"\}")
        return number, sign

    def field(self):
        number = self.number(1, MOST_FIELD)
        self.need(rb"\]")
        return number

    def names(self):
        names = []
        while not names or self.line.take(rb","):
            begun = self.line.at
            names.append(self.need(rb"[A-Za-z0-9_*]+").decode())
            if not tags_of(names[-1]):
                self.unknown.append(Fault("unknown tag", begun))
        return names

    def operand(self):
        """The bytes of a word or of what stands between quotes, and where it begins."""
        begun = self.line.at
        if quote := self.line.take(rb"[\"']"):
            inner = self.line.take(rb"(?:\\.|[^\\%s])*(?=%s)" % (quote[0], quote[0]))
            if inner is None:
                self.line.at = self.line.end
                self.stop()
            self.line.at += 1
            return re.sub(rb"(?s)\\(.)", rb"\1", inner[0]), begun
        return self.need(rb"[A-Za-z0-9_*+.-]+"), begun

    def operator(self):
        self.line.skip()
        found = self.line.take(b"|".join([*SIGNS, *(word + ENDED for word in COMPARING)]))
        return found and found[0]

    def judged(self, operator):
        """The operand of an operator, which is a fault where it should be a number or a pattern and is none."""
        self.line.skip()
        operand, begun = self.operand()
        if operator in NUMERIC and parts_of(operand) is None:
            self.others.append(Fault("number", begun))
        if operator in (b"~", b"!~"):
            try:
                Pattern(operand)
            except Bad:
                self.others.append(Fault("pattern", begun))
        return operand

    def is_cut_word(self):
        """Whether what stands behind a test without an operator is none of the words that may."""
        line, begun = self.line, self.line.at
        found = line.at == line.end or line.take(rb"(?:and|or)" + ENDED) or line.take(rb"\)")
        line.at = begun
        return not found


def read(text):
    """The trees of the lines of a text."""
    try:
        text.decode()
    except UnicodeDecodeError as error:
        raise Fault("syntax", error.start) from None
    trees, at = [], 0
    for line in text.split(b"\n"):
        end = at + len(line)
        if line.strip(BLANKS) and not line.lstrip(BLANKS).startswith(b"#"):
            trees.append(Line(text, at, end).whole())
        at = end + 1
    if not trees:
        raise Fault("syntax", len(text))
    return trees
