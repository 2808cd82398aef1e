"""What a query asks of a group, by docs/formats/queries.md alone: made to be read, not to be fast.

`asked_by(text)` is what the lines of a text ask: a function that says of a group whether one of its queries holds. A
group is a list of members: a level, and something with `records`, each a mark, a tag and a payload.
"""

import operator

import query_texts
from decimals import PART, cut, field, parts_of, value_after
from patterns import Pattern
from taglists import tags_of

NUMBERS = {b"==": operator.eq, b"!=": operator.ne, b"<": operator.lt, b"<=": operator.le}
NUMBERS |= {b">": operator.gt, b">=": operator.ge}


def asked_by(text, caseless=False):
    """What a text asks of a group: one of its queries must hold."""
    queries = [asked(tree, caseless) for tree in query_texts.read(text)]
    return lambda group: any(holds(group) for holds in queries)


def asked(tree, caseless):
    """What a tree asks of a group."""
    if isinstance(tree, query_texts.Test):
        return asked_of_records(tree, caseless)
    parts = [asked(part, caseless) for part in tree[1:]]
    if tree[0] == "not":
        return lambda group: not parts[0](group)
    joined = any if tree[0] == "or" else all
    return lambda group: joined(holds(group) for holds in parts)


def asked_of_records(test, caseless):
    """What a test asks: a record that is selected and satisfies the operator."""
    tags = set().union(*map(tags_of, test.names))
    satisfies = satisfied_by(test, caseless) if test.operator else lambda _: True

    def holds(group):
        for level, member in group:
            for _, tag, payload in member.records if meets(test, level) else []:
                subject = subject_of(test, payload) if tag in tags else None
                if subject is not None and satisfies(subject):
                    return True
        return False

    return holds


def meets(test, level):
    """Whether a level is the one that the test has, at least it with a plus, at most it with a minus."""
    if test.level is None or level == test.level:
        return True
    return level > test.level if test.sign == b"+" else test.sign == b"-" and level < test.level


def subject_of(test, payload):
    """What is asked of a payload; None where it lacks the prefix or the field."""
    if test.prefix is not None:
        payload = value_after(payload, test.prefix)
    return payload if payload is None or test.field is None else field(payload, test.field)


def satisfied_by(test, caseless):
    """Which bytes satisfy an operator with an operand."""
    operand = test.operand
    if test.operator in (b"eq", b"ne"):
        folded = bytes.lower if caseless else bytes
        return lambda subject: (folded(subject) == folded(operand)) == (test.operator == b"eq")
    if test.operator in (b"~", b"!~"):
        pattern = Pattern(operand, caseless)
        return lambda subject: pattern.matches(subject) == (test.operator == b"~")
    unit = 1 if b"." in operand else PART
    wanted = cut(parts_of(operand), unit)

    def satisfied(subject):
        parts = parts_of(subject.strip())
        return parts is not None and NUMBERS[test.operator](cut(parts, unit), wanted)

    return satisfied
