#!/usr/bin/env python3
"""Prints what `vslog [-t] [--strict] FILE` takes of a log of Varnish's own, as raw lines, and then what it counts.

    tools/reference/varnish_log.py [-t] [--strict] FILE

FILE is what `varnishlog -w` writes, or with -t what `varnishlog -g raw` prints. This follows FORMATS,
"Varnish's own log" and "Lines of a listing", alone, and is made to be read, not to be fast. A record is its VXID, its
mark (`c`, `b` or `-`), the name of its tag, and its payload. The counts go to standard error; where copying stops
before the end, why and where goes there in their place, with status 1.
"""

import collections
import itertools
import re
import struct
import sys
import typing

sys.dont_write_bytecode = True
from vslog import MARKS, MOST_DIGITS, MOST_PAYLOAD, MOST_VXID, TAGS, NotRead, raw_line

MOST_HELD = 262208  # bytes in which a line's line feed must come
MESSAGE = "Method URL Protocol Status Reason Header Unset Lost".split()
# The names of all of Varnish's tags, by their numbers in Varnish 7.1.
ALL_NAMES = [
    *["none", "Debug", "Error", "CLI", "SessOpen", "SessClose", "BackendOpen", "BackendReuse", "BackendClose"],
    *["HttpGarbage", "Proxy", "ProxyGarbage", "Backend", "Length", "FetchError"],
    *[message + part for message in ("Req", "Resp", "Bereq", "Beresp", "Obj") for part in MESSAGE],
    *["BogoHeader", "LostHeader", "TTL", "Fetch_Body", "VCL_acl", "VCL_call", "VCL_trace", "VCL_return", "ReqStart"],
    *["Hit", "HitPass", "ExpBan", "ExpKill", "WorkThread", "ESI_xmlerror", "Hash", "Backend_health", "VCL_Log"],
    *["VCL_Error", "Gzip", "Link", "Begin", "End", "VSL", "Storage", "Timestamp", "ReqAcct", "PipeAcct", "BereqAcct"],
    *["VfpAcct", "Witness", "BackendStart", "H2RxHdr", "H2RxBody", "H2TxHdr", "H2TxBody", "HitMiss", "Filters"],
    *["SessError", "VCL_use", "Notice", "VdpAcct"],
]
WITHOUT_TEXT = {"H2RxHdr", "H2RxBody", "H2TxHdr", "H2TxBody"}
UNSAFE = {"Debug", "HttpGarbage", "Hash"}  # tags whose bytes varnishlog prints with escapes
PRINTABLE = range(0x20, 0x7F)


class Form(typing.NamedTuple):
    """What tells one form of the binary log from another."""

    file_mark: bytes
    version: int  # bits 16 to 23 of a record's first word
    words: str  # the first word, and the number of VXID and mark, whose two highest bits are the mark's
    vxid_bits: int
    lacks: frozenset  # names of tags

    @property
    def head(self):
        """How many bytes a record has before those of its own."""
        return struct.calcsize(self.words)

    @property
    def mark_place(self):
        """Below the two bits of the mark."""
        return 8 * (self.head - 4) - 2

    @property
    def names(self):
        """The names of the tags by their numbers."""
        return [name for name in ALL_NAMES if name not in self.lacks]


NARROW = Form(b"VSL\0", 0, "<II", 30, frozenset())
WIDE = Form(b"VSL2", 1, "<IQ", 51, frozenset({"BackendReuse", "Backend", "BackendStart"}))
FORMS = {form.file_mark: form for form in (NARROW, WIDE)}
OUR_NAMES = {name.lower().encode(): name for name in TAGS[1:]}
TAKEN = frozenset(OUR_NAMES.values())
# A record's line: VXID, name and mark with spaces between them, and perhaps a space and a payload.
LINE = re.compile(rb" *([0-9]+) +([^ ]+) +([cb-])(?: (.*))?", re.DOTALL)
# What a file looks like that is given in the place of another; a text may be empty, and begin as nothing known.
NO_BINARY = {"empty", "our log", "another version", "gzip", "text", "unknown"}
NO_TEXT = {"binary", "our log", "another version", "gzip"}


def looks_of(first):
    """What a file looks like whose first four bytes are these, as many as it has."""
    if not first:
        return "empty"
    if first in FORMS:
        return "binary"
    if first == b"VSLO":
        return "our log"
    if first.startswith(b"VSL"):
        return "another version"
    if first.startswith(b"\x1f\x8b"):
        return "gzip"
    return "text" if all(byte >= 32 and byte != 127 or byte in b"\t\n\r" for byte in first) else "unknown"


class NotVarnishs(Exception):
    """A file is no log of Varnish of the form that is read. The message says what it looks like."""


class Lost(Exception):
    """Here, at a byte or in a line, something would be left out or cut that is named as its count."""

    def __init__(self, what, at):
        super().__init__(f"{what} at {at}")
        self.what, self.at = what, at


def check_looks(data, others):
    """Fails where a file looks like one of the others."""
    looks = looks_of(bytes(data[:4]))
    if looks in others:
        raise NotVarnishs(looks)


def read_entries(data, counts):
    """All records of a binary log, each as place, VXID, mark, name of its tag or None, bytes. Where none begins, NotRead."""
    check_looks(data, NO_BINARY)
    form, at = FORMS[bytes(data[:4])], 4
    names = dict(enumerate(form.names))
    while at + form.head <= len(data):
        word, number = struct.unpack_from(form.words, data, at)
        start, stop = at + form.head, at + form.head + (word & 0xFFFF)
        mark, vxid = divmod(number, 1 << form.mark_place)
        if word >> 16 & 0xFF != form.version or mark == 3 or vxid >> form.vxid_bits:
            raise NotRead("damaged", at)
        if (stop + 3) // 4 * 4 > len(data):
            break
        yield at, vxid, MARKS[mark], names.get(word >> 24), data[start:stop]
        at = (stop + 3) // 4 * 4
    counts["bytes"] += len(data) - at


def lose(what, at, counts, is_strict):
    """Counts what is left out or cut, or stops before it."""
    if is_strict:
        raise Lost(what, at)
    counts[what] += 1


def taken(at, record, counts, is_strict):
    """What is taken of a record, or None where its name isn't one of our tags."""
    vxid, mark, name, payload = record
    if name not in TAKEN:
        return lose("tags", at, counts, is_strict)
    if len(payload) > MOST_PAYLOAD:
        lose("cut", at, counts, is_strict)
    return vxid, mark, name, bytes(payload[:MOST_PAYLOAD])


def taken_entry(entry, counts, is_strict=False):
    """What is taken of a record of a binary log: of a text without the zero byte at its end."""
    at, vxid, mark, name, payload = entry
    has_zero = name not in WITHOUT_TEXT and payload[-1:] == b"\0"
    return taken(at, (vxid, mark, name, payload[:-1] if has_zero else payload), counts, is_strict)


def varnish_line(vxid, mark, name, payload):
    """The line that Varnish's own varnishlog prints of a record of a binary log under -g raw."""
    payload = bytes(payload)
    if name in WITHOUT_TEXT:
        text = b"[%s]" % payload.hex().encode()
    elif name in UNSAFE:
        text = b'"%s"' % b"".join(bytes([byte]) if byte in PRINTABLE else b"%%%02x" % byte for byte in payload)
    else:
        text = payload.partition(b"\0")[0]
    return b"%10d %-14s %s %s\n" % (vxid, name.encode(), mark.encode(), text)


def read_binary(data, counts, is_strict=False):
    """The records that are taken of a binary log. Where copying stops early those before, and then why."""
    records = (taken_entry(entry, counts, is_strict) for entry in read_entries(data, counts))
    return (record for record in records if record)


def line_fault(line, found):
    """Why a line says nothing whatever its name is: it has another form, or else its VXID is out of range."""
    if found is None:
        return "groupings" if line.startswith((b"*", b"-")) else "lines"
    return "vxids" if len(found[1]) > MOST_DIGITS or int(found[1]) > MOST_VXID else None


def taken_line(number, line, counts, is_strict):
    """What is taken of the line of this number, without its end, or None."""
    if line.startswith(b"#") or not line.strip(b" "):
        return None
    found = LINE.fullmatch(line)
    if fault := line_fault(line, found):
        return lose(fault, number, counts, is_strict)
    name = OUR_NAMES.get(found[2].lower())
    return taken(number, (int(found[1]), found[3].decode(), name, found[4] or b""), counts, is_strict)


def read_text(lines, counts, is_strict=False):
    """The records that are taken of lines, each with its line feed; the last may lack it, and is left out then.

    Where copying stops early those before, and then why.
    """
    lines, first = iter(lines), []
    while sum(map(len, first)) < 4 and (line := next(lines, None)) is not None:
        first.append(line)
    check_looks(b"".join(first), NO_TEXT)
    for number, line in enumerate(itertools.chain(first, lines), 1):
        if line.find(b"\n", 0, MOST_HELD) < 0 and len(line) >= MOST_HELD:
            raise NotRead("damaged", number)
        if not line.endswith(b"\n"):
            counts["bytes"] += len(line)
        elif record := taken_line(number, line[:-1].removesuffix(b"\r"), counts, is_strict):
            yield record


def main():
    *options, name = sys.argv[1:] or sys.exit(__doc__)
    if set(options) - {"-t", "--strict"}:
        sys.exit(__doc__)
    is_strict, counts = "--strict" in options, collections.Counter()
    with open(name, "rb") as log:
        read, given = (read_text, log) if "-t" in options else (read_binary, log.read())
        try:
            for record in read(given, counts, is_strict):
                sys.stdout.buffer.write(raw_line(*record))
        except (NotVarnishs, NotRead, Lost) as stopped:
            sys.exit(f"{name}: {stopped}")
    if is_strict and counts["bytes"]:
        sys.exit(f"{name}: ends inside a part of {counts['bytes']} bytes")
    print(*(f"{what}: {count}" for what, count in sorted(counts.items()) if count), sep="\n", file=sys.stderr)


if __name__ == "__main__":
    main()
