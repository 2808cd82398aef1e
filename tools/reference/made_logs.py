#!/usr/bin/env python3
"""Prints a log file of many transactions, for cases and benches: too large to be kept.

    tools/reference/made_logs.py NAME COUNT

Of begun_then_ended COUNT requests begin, and then each ends, in the order in which they began. Of chain each of COUNT
requests is below the one before: its Begin names that one, and its Link the next, before that one begins. Of
chain_from_below the last one comes first, and without Links; of open_chain none ends, without Links too; of ring there
are no Links, and the first names the last. Of star all but the first are below the first, which ends last.
"""

import sys

sys.dont_write_bytecode = True
from vslog import HEADER, unit


def begun_then_ended(count):
    for records in ([("Begin", b"req 0 rxreq")], [("End", b"")]):
        yield from (unit(vxid, "c", records) for vxid in range(1, count + 1))


def chain(count):
    for vxid in range(1, count + 1):
        begin = ("Begin", b"req %d %s" % (vxid - 1, b"esi" if vxid > 1 else b"rxreq"))
        links = [("Link", b"req %d esi" % (vxid + 1))] if vxid < count else []
        yield unit(vxid, "c", [begin, *links, ("End", b"")])


def named(vxid, parent, *ends):
    """The unit of a request that names its parent, and ends or doesn't."""
    begin = b"req %d %s" % (parent, b"esi" if parent else b"rxreq")
    return unit(vxid, "c", [("Begin", begin), *ends])


END = ("End", b"")


def chain_from_below(count):
    for vxid in range(count, 0, -1):
        yield named(vxid, vxid - 1, END)


def open_chain(count):
    for vxid in range(1, count + 1):
        yield named(vxid, vxid - 1)


def ring(count):
    for vxid in range(1, count + 1):
        yield named(vxid, vxid - 1 or count, END)


def star(count):
    yield named(1, 0)
    for vxid in range(2, count + 1):
        yield unit(vxid, "c", [("Begin", b"req 1 esi %d" % vxid), END])
    yield unit(1, "c", [END])


MAKERS = (begun_then_ended, chain, chain_from_below, open_chain, ring, star)
LOGS = {maker.__name__: maker for maker in MAKERS}


def main():
    if len(sys.argv) != 3 or sys.argv[1] not in LOGS or not sys.argv[2].isdigit():
        sys.exit(__doc__)
    sys.stdout.buffer.write(HEADER)
    sys.stdout.buffer.writelines(LOGS[sys.argv[1]](int(sys.argv[2])))


if __name__ == "__main__":
    main()
