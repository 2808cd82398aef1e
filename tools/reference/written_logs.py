"""The units of a log file that is written, by docs/formats/log-files.md alone."""

from vslog import record_words, unit

MOST_WORDS = 65536


def written(vxid, records):
    """The units of the records of a transaction: one ends where the mark changes, or where it would be too long."""
    units, words = [], 0
    for mark, *record in records:
        size = record_words(record[1])
        if not units or units[-1][0] != mark or words + size > MOST_WORDS:
            units.append((mark, []))
            words = 1
        units[-1][1].append(record)
        words += size
    return b"".join(unit(vxid, *each) for each in units)
