"""The groups of a log, told at once: which logs have them, and what they are; and those by the rules record by record.

A log whose links and transactions are told whole is regular, and one that keeps within the limit and the timeout is
calm: both are said below, and what the groups of such a log are. Nothing is claimed of others.
"""

import collections

from group_listing import KINDS, Table, groups_of, read_claim, read_time
from decimals import PART

Place = collections.namedtuple("Place", "at vxid tag payload mark")
Link = collections.namedtuple("Link", "at child parent")


class Told:
    """A log under a grouping, as one list of records, and what is asked of the whole list."""

    def __init__(self, units, grouping):
        flat = [(vxid, *record, mark) for vxid, mark, records in units for record in records if vxid != 0]
        self.all = [Place(at, *one) for at, one in enumerate(flat)]
        self.grouping = grouping
        self.links = [link for place in self.all for link in self.link(place)]
        self.first = {}  # of each child its first link
        for link in reversed(self.links):
            self.first[link.child] = link
        own = [(place.at, 0, place.vxid) for place in self.all]
        others = [(link.at, 1, vxid) for link in self.links for vxid in (link.child, link.parent)]
        self.named = {vxid: at for at, _, vxid in sorted(own + others, reverse=True)}  # where each VXID is named first
        self.of = {vxid: [place for place in self.all if place.vxid == vxid] for vxid in self.named}
        self.ends = {vxid: [place.at for place in self.of[vxid] if place.tag == "End"] for vxid in self.named}

    def link(self, place):
        """The link of a well-formed Begin or Link that the grouping counts, if there is one."""
        if self.grouping == "vxid" or place.tag not in ("Begin", "Link"):
            return
        kind, other, reason = read_claim(place.payload)
        by_client = self.grouping == "request" and (kind, reason) == (b"req", b"rxreq")
        if kind is None or kind == b"sess" or other == 0 or by_client:
            return
        yield Link(place.at, place.vxid, other) if place.tag == "Begin" else Link(place.at, other, place.vxid)

    def parent(self, vxid):
        return self.first[vxid].parent if vxid in self.first else None

    def above(self, vxid):
        """The VXID and all above it, the nearest first."""
        return [] if vxid is None else [vxid] + self.above(self.parent(vxid))

    def is_regular(self):
        for vxid, places in self.of.items():
            begins = [place for place in places if place.tag == "Begin"]
            if not places or begins != places[:1] or read_claim(begins[0].payload)[0] is None:
                return False
            if self.ends[vxid] != [places[-1].at]:
                return False
        if any(link.parent != self.parent(link.child) for link in self.links):
            return False
        for start in self.named:
            vxid = self.parent(start)
            for _ in self.named:
                if vxid == start:
                    return False
                vxid = self.parent(vxid)
        return all(link.at < self.ends[vxid][0] for link in self.first.values() for vxid in (link.child, link.parent))

    def is_calm(self, limit, timeout):
        last = {vxid: max(self.ends[other][0] for other in self.members(self.above(vxid)[-1])) for vxid in self.named}
        times = [(place.at, read_time(place.payload)) for place in self.all if place.tag == "Timestamp"]
        times = [(at, time) for at, time in times if time is not None]
        known = lambda at: max((time for before, time in times if before < at), default=None)
        earliest = times[0][1] if times else None
        first = {vxid: earliest if known(at) is None else known(at) for vxid, at in self.named.items()}
        for at in range(1, len(self.all) + 1):
            if sum(self.named[vxid] < at <= last[vxid] for vxid in self.named) > limit:
                return False
            for vxid, (end,) in self.ends.items():
                if at <= end and known(at) is not None and known(at) > first[vxid] + timeout * PART:
                    return False
        return True

    def members(self, root):
        """The class of a root in preorder."""
        children = [vxid for vxid in self.named if self.parent(vxid) == root]
        children.sort(key=lambda vxid: self.first[vxid].at)
        return [root] + [vxid for child in children for vxid in self.members(child)]

    def group(self, root):
        return [
            (len(self.above(vxid)), vxid, self.parent(vxid) or 0, self.kind(vxid), self.records(vxid))
            for vxid in self.members(root)
        ]

    def records(self, vxid):
        return [(place.mark, place.tag, place.payload) for place in self.of[vxid]]

    def kind(self, vxid):
        return KINDS[read_claim(self.of[vxid][0].payload)[0]]

    def partition(self):
        roots = [vxid for vxid in self.named if self.parent(vxid) is None]
        roots.sort(key=lambda root: max(self.ends[vxid][0] for vxid in self.members(root)))
        return [self.group(root) for root in roots if self.grouping != "request" or self.kind(root) != "Session"]


def by_rules(units, grouping, limit, timeout, flushed):
    """The groups that the rules give record by record."""
    table = Table(grouping, limit, timeout)
    groups = groups_of(table, units) if flushed else (group for unit in units for group in table.take_unit(*unit))
    return [
        [(level, row.vxid, row.parent.vxid if row.parent else 0, row.kind, row.records) for level, row in group]
        for group in groups
    ]


def told(units, grouping):
    """The groups of a regular log, told at once."""
    return Told(units, grouping).partition()


def is_claimed(units, grouping, limit, timeout):
    """Whether a log is regular and calm, so that its groups are its partition."""
    log = Told(units, grouping)
    return log.is_regular() and log.is_calm(limit, timeout)
