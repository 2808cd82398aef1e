#!/usr/bin/env python3
"""Prints what `vtools varnishncsa [OPTIONS] -r LOG` must print, from the raw lines of a log of a real server.

    tools/reference/access_lines.py [-b] [-c] [-E] [-F FORMAT] RAW        RAW is what `vtools varnishlog -g raw` prints

It follows docs/formats/access-lines.md alone, and uses no output of varnishncsa. All transactions must end in the log,
none too late for the limits.
"""

import base64
import binascii
import getopt
import os
import re
import sys
import time

sys.dont_write_bytecode = True
import formats
from decimals import PART, cut, field, parts_of, value_after
from group_listing import Table

DEFAULT = '%h %l %u %t "%r" %s %b "%{Referer}i" "%{User-agent}i"'
MONTHS = "Jan Feb Mar Apr May Jun Jul Aug Sep Oct Nov Dec".split()
LAST_SECOND = 253402000000
MILLISECOND, MICROSECOND = PART // 1000, PART // 1000000
ESCAPES = {byte: rb"\x%02x" % byte for byte in range(256) if not 32 <= byte < 127}
ESCAPES |= {ord('"'): rb"\"", ord("\\"): rb"\\", 9: rb"\t", 10: rb"\n", 13: rb"\r"}
CALLS = [b"HIT", b"MISS", b"PASS", b"PIPE", b"SYNTH"]


class Log:
    """What a transaction logged: its kind, and the payloads of each tag."""

    def __init__(self, member):
        self.vxid, self.kind, self.reason, self.records = member.vxid, member.kind, member.reason, member.records
        self.is_client = member.kind == "Request"

    def all(self, tag):
        return [payload for _, of, payload in self.records if of == tag]

    def asked(self, part):
        """Of what was asked: the first record of a client, the last of a backend."""
        payloads = self.all("Req" + part) if self.is_client else self.all("Bereq" + part)[::-1]
        return payloads[0] if payloads else None

    def headers(self, message, name):
        """The values of a header, in order; of the backend's message for a request to one."""
        tag = message.capitalize() if self.is_client else "Be" + message
        return values_after(self.all(tag + "Header"), name)

    def stamp(self, of_client, of_backend, number):
        """A field of the last Timestamp with the label of the side."""
        found = values_after(self.all("Timestamp"), of_client if self.is_client else of_backend)
        return field(found[-1], number) if found else None

    def is_logged(self, sides):
        """Whether it has a line, with these of the flags -b, -c and -E."""
        if b"restart" in self.all("VCL_return"):
            return False
        if self.is_client:
            return "E" in sides or self.reason != b"esi" and ("c" in sides or not sides)
        return self.kind == "BeReq" and "b" in sides


def values_after(payloads, name):
    found = (value_after(payload, name) for payload in payloads)
    return [value for value in found if value is not None]


def first(values):
    return values[0] if values else None


def last(values):
    return values[-1] if values else None


def field_of(payload, number):
    """The field of a payload that may be missing."""
    return None if payload is None else field(payload, number)


def host_address(log):
    return field_of(log.asked("Start"), 1) if log.is_client else field_of(first(log.all("BackendOpen")), 3)


def user(log):
    found = log.headers("req", b"Authorization")
    words = (first(found) if log.is_client else last(found)) or b""
    kind, coded = (words.split() + [b"", b""])[:2]
    try:
        plain = base64.b64decode(coded, validate=True)
    except binascii.Error:
        return None
    is_right = kind.lower() == b"basic" and base64.b64encode(plain) == coded and b":" in plain
    return plain.split(b":")[0] if is_right else None


def acct(log, number):
    return field_of(log.asked("Acct"), number)


def body_bytes(log):
    found = acct(log, 5)
    return None if found == b"0" else found


def url_part(log, behind):
    """What stands before the first question mark of the URL, or that and what stands behind it."""
    url = log.asked("URL")
    if url is None:
        return b"" if behind else None
    before, mark, query = url.partition(b"?")
    return mark + query if behind else before


def protocol(log):
    found = log.asked("Protocol")
    return b"HTTP/1.0" if found is None else found


def request_line(log):
    """Method, host with URL, and protocol."""
    found = log.headers("req", b"Host")
    host = first(found) if log.is_client else last(found)
    host = b"localhost" if host is None else host
    start = b"" if host.startswith(b"http://") else b"http://"
    method, url = log.asked("Method"), log.asked("URL")
    return b"%s %s%s%s %s" % (b"-" if method is None else method, start, host, url or b"", protocol(log))


def status(log):
    return last(log.all("RespStatus")) if log.is_client else first(log.all("BerespStatus"))


def taken(log, unit):
    """How long it took, in whole units."""
    text = log.stamp(b"Resp", b"BerespBody", 2)
    parts = None if text is None else parts_of(text)
    return None if parts is None else b"%d" % cut(parts, unit)


def begun(log, written):
    """The time at which it began, as is written."""
    text = log.stamp(b"Start", b"Start", 1)
    parts = None if text is None else parts_of(text)
    if parts is None or not 0 <= parts <= LAST_SECOND * PART:
        return None
    whole = {b"sec": PART, b"msec": MILLISECOND, b"usec": MICROSECOND}
    if written in whole:
        return b"%d" % (parts // whole[written])
    if written == b"msec_frac":
        return b"%03d" % (parts % PART // MILLISECOND)
    if written == b"usec_frac":
        return b"%06d" % (parts % PART // MICROSECOND)
    moment = time.gmtime(parts // PART)
    return re.sub(rb"(?s)%(.)", lambda directive: of_directive(moment, directive[1].decode()), written)


def of_directive(moment, directive):
    """What a directive prints of a moment."""
    texts = {
        **{"Y": f"{moment.tm_year:04}", "m": f"{moment.tm_mon:02}", "d": f"{moment.tm_mday:02}"},
        **{"H": f"{moment.tm_hour:02}", "M": f"{moment.tm_min:02}", "S": f"{moment.tm_sec:02}"},
        **{"e": f"{moment.tm_mday:2}", "b": MONTHS[moment.tm_mon - 1], "z": "+0000", "%": "%"},
    }
    texts |= {"F": "{Y}-{m}-{d}".format(**texts), "T": "{H}:{M}:{S}".format(**texts)}
    return texts[directive].encode()


def handling(log):
    calls = [call.upper() for call in log.all("VCL_call") if call.upper() in CALLS]
    return calls[-1].lower() if calls and log.is_client else None


def hit_or_miss(log):
    found = handling(log)
    return found if found in (None, b"hit") else b"miss"


def part(log, wanted):
    """What the first record of a tag has that has the prefix and the field."""
    found = log.all(wanted.tag) if wanted.prefix is None else values_after(log.all(wanted.tag), wanted.prefix)
    found = found if wanted.field is None else [field(text, wanted.field) for text in found]
    return first([text for text in found if text is not None])


OF_LETTER = {
    b"h": host_address,
    b"l": lambda log: None,
    b"u": user,
    b"t": lambda log: begun(log, b"[%d/%b/%Y:%H:%M:%S %z]"),
    b"r": request_line,
    b"m": lambda log: log.asked("Method"),
    b"U": lambda log: url_part(log, False),
    b"q": lambda log: url_part(log, True),
    b"H": protocol,
    b"s": status,
    b"b": body_bytes,
    b"I": lambda log: acct(log, 3),
    b"O": lambda log: acct(log, 6),
    b"D": lambda log: taken(log, MICROSECOND),
    b"T": lambda log: taken(log, PART),
}
OF_VARNISH = {
    b"Varnish:time_firstbyte": lambda log: log.stamp(b"Process", b"Beresp", 2),
    b"Varnish:hitmiss": hit_or_miss,
    b"Varnish:handling": handling,
    b"Varnish:side": lambda log: b"c" if log.is_client else b"b",
    b"Varnish:vxid": lambda log: b"%d" % log.vxid,
}


def value(log, letter, braced):
    """The value of a formatter, None where it is missing."""
    if braced is None:
        return OF_LETTER[letter](log)
    if letter in b"io":
        return last(log.headers("req" if letter == b"i" else "resp", braced))
    if letter == b"t":
        return begun(log, braced)
    if isinstance(braced, formats.Part):
        return part(log, braced)
    if braced in OF_VARNISH:
        return OF_VARNISH[braced](log)
    return first(values_after(log.all("VCL_Log"), braced.removeprefix(b"VCL_Log:")))


def escaped(text):
    """A value as it is printed."""
    return b"".join(ESCAPES.get(byte, bytes([byte])) for byte in text)


def line(pieces, log):
    """The line of a transaction."""
    parts = []
    for piece in pieces:
        found = piece if isinstance(piece, bytes) else value(log, *piece)
        parts.append(found if isinstance(piece, bytes) else b"-" if found is None else escaped(found))
    return b"".join(parts) + b"\n"


def lines(pieces, members, sides):
    """The lines of those transactions that have one."""
    return b"".join(line(pieces, log) for log in map(Log, members) if log.is_logged(sides))


def read_line(raw):
    """VXID, mark and a record of a raw line."""
    payload = re.sub(rb"\\x([01][0-9a-f]|7f)", lambda escape: bytes([int(escape[1], 16)]), raw[28:])
    return int(raw[:10]), raw[26:27].decode(), [(raw[11:25].rstrip().decode(), payload)]


def transactions(units):
    """The transactions of a log, in the order of their ends."""
    table = Table("vxid", len(units), sys.maxsize)
    groups = [group for unit in units for group in table.take_unit(*unit)]
    if table.unfinished():
        sys.exit(f"access_lines: {len(table.unfinished())} transactions have no end")
    return [member for group in groups for _, member in group]


def main():
    options, (name,) = getopt.getopt(sys.argv[1:], "bcEF:")
    given = dict(options)
    with open(name, "rb") as raw:
        units = [read_line(text) for text in raw.read().split(b"\n")[:-1]]
    pieces = formats.read(os.fsencode(given.get("-F", DEFAULT)))
    sys.stdout.buffer.write(lines(pieces, transactions(units), {option[1] for option in given} & set("bcE")))


if __name__ == "__main__":
    main()
