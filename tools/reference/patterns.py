"""Patterns that are read alike by Python and by the crate `regex`, over bytes; of all others nothing is claimed here.

They are made of letters, digits and signs, the point, classes, anchors, repetitions, groups and alternatives. A payload
with bytes from 128 on is asked only where each byte of it is compared with one of the pattern.
"""

import re

SIGNS = " _:/=,;@%&<>!\"'~#`-"
ESCAPED = r"\.*+?()[]{}|^$-"  # each stands for itself behind a backslash
OF_CLASS = " _:./=,"
CLASS_ESCAPES = [r"\d", r"\D", r"\w", r"\W", r"\s", r"\S"]  # of bytes below 128 they say the same to both
COUNTED = re.compile(r"\{([0-9]{1,2})(?:(,)([0-9]{1,2})?)?\}")
MOST_BYTES = 200  # of a pattern: longer ones may be nested too deep, or have large tables


class NotClaimed(Exception):
    """Nothing is said here of what the program does."""


class Bad(Exception):
    """The text is no pattern."""


class Reader:
    """A text, how much of it was read, whether a byte may be met by another than itself, and how many repetitions."""

    def __init__(self, text, caseless):
        self.text, self.at, self.is_wide, self.repetitions = text, 0, caseless, 0

    def next(self):
        return self.text[self.at : self.at + 1]

    def take(self, sign):
        """Whether the sign stands next; then it is read."""
        found = self.text.startswith(sign, self.at)
        self.at += len(sign) if found else 0
        return found

    def alternatives(self):
        """Sequences with bars between them, as Python writes them."""
        parts = [self.sequence()]
        while self.take("|"):
            parts.append(self.sequence())
        return "|".join(parts)

    def sequence(self):
        """Pieces up to a bar, a closing parenthesis or the end."""
        parts = []
        while self.next() not in ("", "|", ")"):
            parts.append(self.piece())
        return "".join(parts)

    def piece(self):
        if self.next() in ("*", "+", "?"):
            raise Bad
        if self.take("^"):
            return self.unrepeated("^")
        if self.take("$"):
            return self.unrepeated(r"\Z")
        if self.text.startswith(("\\b", "\\B"), self.at):
            return self.unrepeated(self.wide(2))
        before = self.repetitions
        return self.repeated(self.atom(), self.repetitions > before)

    def wide(self, size):
        """So many signs, as they stand, which may mean bytes from 128 on to one of both."""
        self.is_wide = True
        self.at += size
        return self.text[self.at - size : self.at]

    def unrepeated(self, written):
        """What was read, of which a repetition isn't read alike."""
        if self.next() in ("*", "+", "?", "{"):
            raise NotClaimed
        return written

    def repeated(self, written, has_one):
        """What was read, with its repetition; Python may ask a repetition of a repetition without end."""
        sign = self.next()
        if sign and sign in "*+?":
            self.at += 1
        elif counted := COUNTED.match(self.text, self.at):
            sign, self.at = counted[0], counted.end()
            if counted[3] and int(counted[3]) < int(counted[1]):
                raise Bad
        else:
            return self.unrepeated(written)
        if has_one:
            raise NotClaimed
        self.repetitions += 1
        return self.unrepeated(written + sign + ("?" if self.take("?") else ""))

    def atom(self):
        if self.take("("):
            return self.group()
        if self.take("["):
            return self.of_class()
        if self.next() == ".":
            return self.wide(1)
        if self.text[self.at : self.at + 2] in CLASS_ESCAPES:
            return self.wide(2)
        if self.take("\\"):
            return self.escape()
        sign = self.next()
        if not (sign.isascii() and sign.isalnum()) and sign not in SIGNS:
            raise NotClaimed
        self.at += 1
        return re.escape(sign)

    def group(self):
        if self.next() == "?" and not self.take("?:"):
            raise NotClaimed
        inner = self.alternatives()
        if not self.take(")"):
            raise Bad
        return f"(?:{inner})"

    def escape(self):
        sign = self.next()
        if not sign:
            raise Bad
        if sign not in ESCAPED:
            raise NotClaimed
        self.at += 1
        return re.escape(sign)

    def of_class(self):
        """A class of letters, digits and signs, and ranges of them."""
        negated, parts = "^" if self.take("^") else "", []
        self.is_wide = self.is_wide or bool(negated)
        while not parts or not self.take("]"):
            parts.append(self.of_class_item())
        return f"[{negated}{''.join(parts)}]"

    def of_class_item(self):
        first = self.of_class_sign()
        if self.next() != "-":
            return re.escape(first)
        self.at += 1
        last = self.of_class_sign()
        if last < first:
            raise Bad
        return f"{re.escape(first)}-{re.escape(last)}"

    def of_class_sign(self):
        sign = self.next()
        if not sign:
            raise Bad
        if not (sign.isascii() and sign.isalnum()) and sign not in OF_CLASS:
            raise NotClaimed
        self.at += 1
        return sign


class Pattern:
    """A text of a pattern; Bad where it is none, NotClaimed where nothing is said of it."""

    def __init__(self, text, caseless=False):
        if len(text) > MOST_BYTES:
            raise NotClaimed
        reader = Reader(text.decode(), caseless)
        written = reader.alternatives()
        if reader.at < len(reader.text):
            raise Bad  # a parenthesis that closes nothing
        self.is_wide = reader.is_wide
        self.compiled = re.compile(written.encode(), re.I if caseless else 0)

    def matches(self, payload):
        """Whether it matches somewhere in the payload."""
        if self.is_wide and not payload.isascii():
            raise NotClaimed
        return self.compiled.search(payload) is not None
