"""The groups of a log, and the text of a group, by docs/formats/groups.md alone: made to be read, not to be fast.

A group is a list of levels and members; a member has a VXID, a kind, and records, each a mark, a tag and a payload.
"""

import re
import sys
import typing

from decimals import PART, parts_of
from vslog import MOST_DIGITS, MOST_VXID, escaped, raw_line

LIMIT, TIMEOUT = 1000, 120  # without -L and -T
sys.setrecursionlimit(100000)  # trees may be deep
KINDS = {b"sess": "Session", b"req": "Request", b"bereq": "BeReq"}


def read_claim(payload):
    """The type, VXID and reason of a Begin or a Link; no type and the number 0 where it isn't well formed."""
    kind, number, reason = (payload.split() + [b""] * 3)[:3]
    right = kind in KINDS and re.fullmatch(rb"[0-9]{1,%d}" % MOST_DIGITS, number) and int(number) <= MOST_VXID
    return (kind, int(number), reason) if right else (None, 0, b"")


def read_time(payload):
    """The absolute time of a Timestamp; None where it isn't well formed."""
    label, text = (payload.split() + [b""] * 2)[:2]
    time = parts_of(text)
    return None if time is None or time < 0 or not label.endswith(b":") else time


class Shown(typing.NamedTuple):
    """What is shown of a transaction, or a record by itself."""

    vxid: int
    kind: str
    records: list


class Row:
    """A transaction that stands in a table."""

    def __init__(self, vxid, table):
        self.vxid, self.time, self.records, self.ended = vxid, table.time, [], False
        self.kind, self.reason = "Unknown", b""
        self.parent, self.children = None, []  # the children in the order in which their claims took effect
        table.rows.append(self)

    def chain(self):
        """The row, its parent, the parent's parent, up to the root."""
        return [self] + (self.parent.chain() if self.parent else [])


class Table:
    """The rows that stand, in the order of their making, the log time or None, and the groups that are complete."""

    def __init__(self, grouping, limit, timeout):
        self.grouping, self.limit, self.timeout = grouping, limit, timeout * PART
        self.rows, self.time, self.groups = [], None, []

    def take_unit(self, vxid, mark, records):
        """Takes a unit of the log: the groups that it completes. Each is a list of levels and members."""
        for tag, payload in records:
            if self.grouping == "raw":
                self.groups.append([(0, Shown(vxid, "Record", [(mark, tag, payload)]))])
            elif vxid != 0:
                self.take(vxid, mark, tag, payload)
        return self.leave()

    def flush(self):
        """Ends all rows: the groups that are complete then."""
        for row in self.unfinished():
            self.force(row, b"flush")
        return self.leave()

    def leave(self):
        groups, self.groups = self.groups, []
        return groups

    def take(self, vxid, mark, tag, payload):
        """Takes the next record of the log."""
        row = self.newest(vxid)
        if row is None or row.ended:
            row = Row(vxid, self)
        row.records.append((mark, tag, payload))
        if tag in ("Begin", "Link"):
            self.take_claim(row, tag == "Begin", *read_claim(payload))
        if tag == "Timestamp":
            self.take_time(read_time(payload))
        if tag == "End":
            self.end(row)
        while len(self.rows) > self.limit:
            self.force(self.unfinished()[0], b"store overflow")

    def newest(self, vxid):
        return next((row for row in reversed(self.rows) if row.vxid == vxid), None)

    def unfinished(self):
        return [row for row in self.rows if not row.ended]

    def take_claim(self, row, begins, kind, vxid, reason):
        """A Begin gives its row a kind and claims a parent; a Link claims a child."""
        if begins and row.kind == "Unknown":
            row.kind, row.reason = KINDS.get(kind, "Unknown"), reason
        by_client = self.grouping == "request" and (kind, reason) == (b"req", b"rxreq")
        if self.grouping == "vxid" or vxid == 0 or kind == b"sess" or by_client:
            return
        other = self.newest(vxid) or Row(vxid, self)
        child, parent = (row, other) if begins else (other, row)
        if child.parent is None and not child.ended and child not in parent.chain():
            child.parent = parent
            parent.children.append(child)

    def take_time(self, time):
        """A time raises the log time, and rows that are too far behind are ended. The first is the time of all rows."""
        if time is None or self.time is not None and time <= self.time:
            return
        for row in self.rows if self.time is None else []:
            row.time = time
        self.time = time
        for row in self.unfinished():
            if time - row.time > self.timeout:
                self.force(row, b"timeout")

    def end(self, row):
        """The row has ended. Where no row of its tree is unfinished, the tree leaves."""
        row.ended = True
        root = row.chain()[-1]
        group = list(preorder(root, 1))
        if all(member.ended for _, member in group):
            for _, member in group:
                self.rows.remove(member)
            if self.grouping != "request" or root.kind != "Session":
                self.groups.append(group)

    def force(self, row, cause):
        mark = row.records[0][0] if row.records else "-"
        row.records += [(mark, "VSL", cause), (mark, "End", b"synth")]
        self.end(row)


def preorder(row, level):
    """The row and all below it, each with its level."""
    yield level, row
    for child in row.children:
        yield from preorder(child, level + 1)


def groups_of(table, units):
    """The groups of a whole log, in the order in which they are complete."""
    for unit in units:
        yield from table.take_unit(*unit)
    yield from table.flush()


def lines_of(group, verbose):
    """The text of a group."""
    lines = []
    for level, row in group:
        stars, dashes = (f"{sign * level:3} " if level <= 3 else f"{sign}{level}{sign} " for sign in "*-")
        if level > 0:
            lines.append(f"{stars}<< {row.kind:8} >> {row.vxid:<10}\n".encode())
        for mark, tag, payload in row.records:
            if level == 0:
                lines.append(raw_line(row.vxid, mark, tag, payload))
            elif verbose:
                lines.append(dashes.encode() + raw_line(row.vxid, mark, tag, payload))
            else:
                lines.append(f"{dashes}{tag:14} ".encode() + escaped(payload) + b"\n")
    return b"".join(lines) + (b"\n" if any(level > 0 for level, _ in group) else b"")
