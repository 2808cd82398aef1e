"""Which transactions and records of a group are shown, by docs/formats/shown.md alone."""

import re
import typing

from group_listing import Shown
from patterns import Bad, Pattern
from taglists import first_unknown, tags_of


class Rule(typing.NamedTuple):
    """What an option -i, -x, -I or -X says: tags, or None for all of them, and a pattern or None."""

    option: str
    tags: set | None
    pattern: Pattern | None

    def names(self, tag):
        return self.tags is None or tag in self.tags

    def matches(self, tag, payload):
        return self.names(tag) and self.pattern.matches(payload)


def read_rule(option, text, caseless=False):
    """The rule of an option and its value, or in words why it is refused."""
    names, pattern = [*text.split(",")], None
    if option in ("-I", "-X"):
        before, colon, behind = text.partition(":")
        has_list = colon and re.fullmatch("[A-Za-z0-9_*,]*", before)
        names, pattern = (before.split(",") if before else [], behind) if has_list else ([], text)
    if first_unknown(names) is not None:
        return "bad value"
    try:
        read_pattern = None if pattern is None else Pattern(pattern.encode(), caseless)
    except Bad:
        return "pattern refused"
    return Rule(option, set().union(*map(tags_of, names)) if names else None, read_pattern)


class Selection:
    """Rules in the order of the words, and the flags -b, -c and -E that are given."""

    def __init__(self, rules, flags):
        self.sides = flags & set("bcE")
        self.taglists = [rule for rule in rules if rule.pattern is None]
        self.patterns = [rule for rule in rules if rule.pattern is not None]

    def shows_record(self, tag, payload):
        """The first pattern that matches decides, else the last taglist that names it, else what came first."""
        for rule in self.patterns:
            if rule.matches(tag, payload):
                return rule.option == "-I"
        for rule in reversed(self.taglists):
            if rule.names(tag):
                return rule.option == "-i"
        firsts = self.taglists[:1] + self.patterns[:1]
        return not any(rule.option in ("-i", "-I") for rule in firsts)

    def shows_member(self, level, member):
        """Without a side each is shown, and else what one of them shows."""
        if not self.sides:
            return True
        if level == 0:
            mark = member.records[0][0]
            return mark == "c" and bool(self.sides & set("cE")) or mark == "b" and "b" in self.sides
        if member.kind == "Request":
            return "E" in self.sides or "c" in self.sides and member.reason != b"esi"
        return member.kind == "BeReq" and "b" in self.sides

    def shown(self, group):
        """The members of a group of which something is shown, with the records that are."""
        for level, member in group:
            if self.shows_member(level, member):
                records = [record for record in member.records if self.shows_record(*record[1:])]
                if records:
                    yield level, Shown(member.vxid, member.kind, records)
