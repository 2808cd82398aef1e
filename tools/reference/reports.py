"""The report of varnishtop, by docs/formats/varnishtop.md alone."""

import collections

from decimals import field
from vslog import escaped


def report(records, first_field):
    """Each different tag and text of the records once, the highest count first."""
    counts = collections.Counter((tag.encode(), text_of(payload, first_field)) for _, tag, payload in records)
    ordered = sorted(counts.items(), key=lambda counted: (-counted[1], counted[0]))
    return b"".join(b"%10d %-14s %s\n" % (count, tag, escaped(text)) for (tag, text), count in ordered)


def text_of(payload, first_field):
    """The payload, or its first field, which is empty where it has none."""
    return field(payload, 1) or b"" if first_field else payload
