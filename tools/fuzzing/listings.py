"""Listings that are made up from draws: records in all forms of a line, what ends batches, and bad lines."""

import vslog

TAGS = [
    *["Begin", "Link", "End", "VCL_Log", "Timestamp", "ReqAcct", "VCL_call", "SessOpen", "Hit", "HitPass", "HitMiss"],
    *["BackendOpen", "FetchError", "CLI"],
]
PAYLOADS = {
    "Begin": [b"req 2 rxreq", b"req 1 esi", b"bereq 2 fetch", b"sess 0 HTTP/1", b"bereq 0", b"Req 1 rxreq"],
    "Link": [b"req 3 esi", b"bereq 4 fetch", b"x"],
    "End": [b"", b"", b"", b"synth"],
    "Timestamp": [b"Start: 100.5 0 0", b"Resp: 230.25 1 1", b"x"],
    "ReqAcct": [b"1 2 3 4 5 6", b"4294967296 10 x 0000000004 4294967295", b"01", b""],
    "VCL_call": [b"MISS", b"pass", b"Pipe", b"SYNTH", b"HIT", b"MISS "],
}
LETTERS = [b"x", b"x", b"x", b"y", b" ", b"\\x09", b"\xe9", b"\0"]
SIZES = [0, 1, 3, 15, 16, 17, 60, 120, 200, 239, 240, 241, 244, 245, 255, 256, 300] * 3 + [3999, 4000, 4001, 5000]
BAD = [
    *[b"x", b" # x", b"\t", b"4611686018427387904 End c", b"%020d End c" % 2, b"-2 End c", b"2 Nope c", b"2 Req* c"],
    *[b"2 44 c", b"2 End", b"2 End C", b"2 End cb", b"2\tEnd c", b"*   << Request  >> 2", b"2 End c\r x"],
]
BETWEEN = [b"\n", b"# a comment\n", b"  \n", b"#\r\n", b" \r\n", b"\r\n"]
MARKS = "ccb-"


def payload(draw, tag):
    """A payload of a tag, or bytes of a size that meets a bound."""
    if tag in PAYLOADS and draw.randrange(4):
        return draw.choice(PAYLOADS[tag])
    return draw.choice(LETTERS) * draw.choice(SIZES)


def line(draw, vxid, mark):
    """The line of a record, as it is printed or in another form."""
    tag = draw.choice(TAGS)
    said, end = payload(draw, tag), draw.choice([b"\n"] * 5 + [b"\r\n"])
    if draw.randrange(3):
        return b"%10d %-14s %s %s" % (vxid, tag.encode(), mark.encode(), said) + end
    first, *between = (b" " * draw.choice(sizes) for sizes in ([0, 0, 1, 2], [1, 1, 2, 5], [1, 1, 2, 5]))
    parts = [b"%0*d" % (draw.choice([1, 10, vslog.MOST_DIGITS]), vxid), draw.choice([str.lower, str.upper])(tag).encode(), mark.encode()]
    behind = b" " + said if said or draw.randrange(2) else b""
    return first + parts[0] + between[0] + parts[1] + between[1] + parts[2] + behind + end


def listing(draw, most=25):
    """A listing of at most so many records."""
    parts, vxid, mark = [], 1, "c"
    for _ in range(draw.randint(0, most)):
        if draw.randrange(3) == 0:
            vxid, mark = draw.choice([0, 1, 2, 3, 4, 1 << 30, 1 << 32, vslog.MOST_VXID]), draw.choice(MARKS)
        parts.append(line(draw, vxid, mark))
        if draw.randrange(8) == 0:
            parts.append(draw.choice(BETWEEN))
        if draw.randrange(120) == 0:
            parts.append(draw.choice(BAD) + b"\n")
    data = b"".join(parts)
    return data.removesuffix(b"\n") if draw.randrange(6) == 0 else data
