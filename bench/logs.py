"""Log files of ours and of Varnish 7, with the same records again and again, for the benches."""

import collections
import itertools
import os
import pathlib
import struct

import varnish_log
import vslog

REAL = pathlib.Path(__file__).resolve().parent.parent / "examples/real-1.vslog"
MEBIBYTE = 1 << 20
SESSION = 1  # the VXID of the session of requests that are made
FIRST_SECOND, STEP = 1796000000, 0.001  # when they begin, and how long behind one another
PARTS = 5  # units of a request that is made


def real_units(version=vslog.TWO):
    """The units of the real log, in the words of a version."""
    return b"".join(vslog.unit(*unit, version) for unit in vslog.read_units(REAL.read_bytes()))


def repeat(path, header, records, copies):
    """Writes the header once, and the records again and again: the size of the file."""
    with open(path, "wb") as log:
        log.write(header)
        for _ in range(copies):
            log.write(records)
    return os.path.getsize(path)


def fill(path, most):
    """Writes a log file of at most so many bytes, the real log's units again and again: its size."""
    units = real_units()
    return repeat(path, vslog.HEADER, units, (most - len(vslog.HEADER)) // len(units))


def varnish_records(data):
    """The records of a log as Varnish 7 writes them: its own tag numbers, and a zero byte behind each payload."""
    numbers, words = {name: number for number, name in enumerate(varnish_log.NARROW.names)}, []
    for vxid, mark, records in vslog.read_units(data):
        for tag, payload in records:
            head = struct.pack(varnish_log.NARROW.words, numbers[tag] << 24 | len(payload) + 1, vxid | vslog.MARKS.index(mark) << 30)
            words.append(head + payload + b"\0" * (4 - len(payload) % 4))
    return b"".join(words)


def our_units(path):
    """The records of a log file of Varnish as units of ours. Records of one VXID that stand together are one unit."""
    with open(path, "rb") as source:
        log = source.read()
    records = varnish_log.read_binary(log, collections.Counter())
    for (vxid, mark), group in itertools.groupby(records, lambda record: record[:2]):
        yield vslog.unit(vxid, mark, [record[2:] for record in group])


def request(vxid, seconds):
    """The records of a request that is made, as a server writes them, in parts, a second from one to the next."""
    times = [b"%.6f" % (seconds + part) for part in range(PARTS)]
    status = 503 if vxid % 100 == 0 else 200
    return [
        [
            ("Begin", b"req %d rxreq" % SESSION), ("Timestamp", b"Start: %s 0.000000 0.000000" % times[0]),
            ("ReqStart", b"192.0.2.7 43994 a0"), ("ReqMethod", b"GET"), ("ReqURL", b"/item/%d" % (vxid % 300)),
            ("ReqProtocol", b"HTTP/1.1"), ("ReqHeader", b"Host: www.example.com"),
        ],
        [("VCL_call", b"RECV"), ("VCL_return", b"hash"), ("VCL_call", b"HASH"), ("VCL_return", b"lookup")],
        [("Hit", b"3 1.5 10.0 0.0"), ("VCL_call", b"HIT"), ("VCL_return", b"deliver")],
        [
            ("RespProtocol", b"HTTP/1.1"), ("RespStatus", b"%d" % status), ("RespReason", b"OK"),
            ("Timestamp", b"Process: %s 3.000000 3.000000" % times[3]),
        ],
        [
            ("RespHeader", b"Accept-Ranges: bytes"), ("Timestamp", b"Resp: %s 4.000000 1.000000" % times[4]),
            ("ReqAcct", b"89 0 89 250 442 692"), ("End", b""),
        ],
    ]


def open_at_once(count, wide):
    """The units of requests of which so many are open at once: in turn each of these has a unit, until it ends."""
    behind, parts = wide // (PARTS - 1), {}
    for step in range(count + wide):
        for part in range(PARTS):
            at = step - part * behind
            if 0 <= at < count:
                vxid = SESSION + 1 + at
                left = parts.pop(at, None) or request(vxid, FIRST_SECOND + STEP * at)
                yield vslog.unit(vxid, "c", left[0])
                if part < PARTS - 1:
                    parts[at] = left[1:]


def one_session(count):
    """The units of a session of so many requests, one after another, each in a unit of its own."""
    opened = [("Begin", b"sess 0 HTTP/1"), ("SessOpen", b"192.0.2.7 43994 a0 192.0.2.1 80 %d.000000 22" % FIRST_SECOND)]
    for at in range(count):
        vxid = SESSION + 1 + at
        yield vslog.unit(SESSION, "c", [*opened, ("Link", b"req %d rxreq" % vxid)])
        yield vslog.unit(vxid, "c", list(itertools.chain(*request(vxid, FIRST_SECOND + STEP * at))))
        opened = []
    yield vslog.unit(SESSION, "c", [("SessClose", b"REM_CLOSE %.3f" % (STEP * count)), ("End", b"")])


def single_records(units):
    """The same records, each in a unit of its own, as a log that was written under raw grouping has them."""
    for unit in units:
        for vxid, mark, records in vslog.read_units(vslog.HEADER + unit):
            for record in records:
                yield vslog.unit(vxid, mark, [record])


def esi_trees(trees, parts, depth):
    """The units of pages of so many parts, in order: each level of parts is included by the last part of the one above it.

    A part is delivered within the page, so it has no line of an access log; a Link is a unit of its own.
    """
    vxid, level = SESSION, parts // depth
    for tree in range(trees):
        seconds = FIRST_SECOND + STEP * tree
        page = vxid = vxid + 1
        first, *others = request(page, seconds)
        yield vslog.unit(page, "c", first)
        ended, parent = [(page, list(itertools.chain(*others)))], page
        for at in range(parts):
            vxid += 1
            yield vslog.unit(parent, "c", [("Link", b"req %d esi %d" % (vxid, 1 + at // level))])
            head, *rest = request(vxid, seconds)
            begin = ("Begin", b"req %d esi %d" % (parent, 1 + at // level))
            yield vslog.unit(vxid, "c", [begin, *head[1:]])
            ended.append((vxid, list(itertools.chain(*rest))))
            if (at + 1) % level == 0:
                parent = vxid
        for each, records in reversed(ended):
            yield vslog.unit(each, "c", records)
