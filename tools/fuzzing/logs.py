"""Logs that are made up from draws: hostile ones, regular ones, and such as a server writes."""

from decimals import PART
from vslog import MOST_VXID, MOST_WORDS, unit_words
from written_logs import MOST_WORDS as MOST_WRITTEN

MOST_UNITS, MOST_RECORDS = 40, 5
OTHERS = [
    *[("RespStatus", payload) for payload in (b"200", b"404", b"503", b"200.5", b"-1", b"+200", b"", b"200 OK")],
    *[("ReqHeader", payload) for payload in (b"Host: a", b"host:  b", b"Host:", b"Accept: a b", b"Host")],
    *[("VCL_call", payload) for payload in (b"HIT", b"MISS")],
    *[("ReqURL", payload) for payload in (b"/", b"/a", b"/b?c", b"\x01\x7f\\ \xc3", b"\\x01")],
]
NOT_WELL_FORMED = [
    *[b"", b"req", b"Req 2 esi", b"req -2 esi", b"req 2x esi", b"req 4611686018427387904 esi", b"req %020d esi" % 2],
]


class Hostile:
    """Makes up a log of few VXIDs, which come again and again.

    So Begins and Links name each other, in rings, and children before their parents; some Ends are missing, and some
    come twice; times rise and fall.
    """

    def __init__(self, draw):
        self.draw, self.time = draw, 100 * PART
        first = draw.choice([1] * 5 + [(1 << 32) - 4, 9999999996, MOST_VXID - 7])
        self.vxids = range(first, first + 1 + draw.randrange(8))
        self.parents = {vxid: draw.choice(self.vxids) for vxid in self.vxids}
        self.reasons = draw.choice([[b"esi"], [b"rxreq"], [b"esi", b"restart", b"rxreq", b"fetch", b""]])

    def claim(self, vxid, begins):
        """A payload of a Begin or a Link, which mostly names the parent or a child."""
        kin = [self.parents[vxid]] if begins else [child for child in self.vxids if self.parents[child] == vxid]
        named = self.draw.choice(kin) if kin and self.draw.randrange(4) else self.draw.choice([0, *self.vxids])
        if self.draw.randrange(12) == 0:
            return self.draw.choice(NOT_WELL_FORMED)
        kind = self.draw.choice([b"req", b"req", b"req", b"bereq", b"bereq", b"sess"])
        form = self.draw.choice([b"%s %d %s"] * 6 + [b" %s\t%03d  %s more"])
        return form % (kind, named, self.draw.choice(self.reasons))

    def timestamp(self):
        step = self.draw.choice([-2000, -1, 0, 1, 500, 1000, 1000, 3000]) * PART // 1000
        self.time += step + self.draw.choice([0, 0, -1, 1]) * self.draw.choice([1, PART // 10**9])
        seconds, parts = divmod(max(self.time, 0), PART)
        label = self.draw.choice([b"Start:", b"Resp:", b"Resp:", b":", b"Resp"])
        return b"%s %d.%018d 0.5 0.1" % (label, seconds, parts)

    def record(self, vxid):
        kind = self.draw.randrange(10)
        if kind < 2:
            return "Begin", self.claim(vxid, True)
        if kind < 5:
            return "Link", self.claim(vxid, False)
        if kind < 6:
            return "Timestamp", self.timestamp()
        if kind < 8:
            return "End", self.draw.choice([b"", b"", b"synth"])
        return self.draw.choice(OTHERS)

    def unit(self):
        vxid, mark = self.draw.choice(self.vxids), self.draw.choice("ccb-")
        if self.draw.randrange(20) == 0:
            return 0, "-", [("CLI", b"Rd ping"), ("Timestamp", self.timestamp())]
        records = [self.record(vxid) for _ in range(self.draw.randint(1, MOST_RECORDS))]
        return vxid, mark, [("Begin", self.claim(vxid, True)), *records] if self.draw.randrange(3) == 0 else records

    def units(self, count):
        return [self.unit() for _ in range(count)]


def hostile(draw, most=MOST_UNITS):
    """A hostile log of at most so many units."""
    return Hostile(draw).units(draw.randint(1, most))


OF_NONE = [("End", b""), ("Timestamp", b"Start: 99 0 0"), ("Begin", b"req 1 esi")]  # records of no transaction


def regular(draw):
    """Trees of transactions, each linked by its Begin, by Links of its parent, or both, in an order made up."""
    vxids = draw.sample(range(1, 20), draw.choice([1, 2, 3, 4, 5, 6, 7, 14]))
    parents = {vxid: draw.choice([None, *vxids[:place]]) for place, vxid in enumerate(vxids)}
    if draw.randrange(6) == 0:  # one below the other
        parents = dict(zip(vxids, [None, *vxids]))
    begins, inner = {}, {vxid: [] for vxid in vxids}
    for vxid, parent in parents.items():
        begins[vxid], linked = begin(draw, parent)
        if parent is not None and (not linked or draw.random() < 0.5):
            link = b"%s %d esi" % (draw.choice([b"req", b"bereq"]), vxid)
            inner[parent] += [("Link", link)] * draw.choice([1, 1, 2])
    for records in inner.values():
        records += [without_link(draw) for _ in range(draw.randint(0, 2))]
        draw.shuffle(records)
    return mixed(draw, {vxid: [begins[vxid], *inner[vxid], ("End", b"")] for vxid in vxids})


def begin(draw, parent):
    """A Begin, and whether it names the parent."""
    if parent is None:
        return ("Begin", draw.choice([b"sess 0 HTTP/1", b"req 0 rxreq", b"req 1 rxreq", b"bereq 0"])), False
    named, reason = draw.choice([parent, parent, 0]), draw.choice([b"esi", b"fetch", b""])
    return ("Begin", b"%s %d %s" % (draw.choice([b"req", b"bereq"]), named, reason)), named > 0


def without_link(draw):
    """A record that makes no link."""
    time = b"Start: %d.5 0 0" % draw.randint(0, 9)
    return draw.choice([("Timestamp", time), ("Timestamp", b"bad"), ("Debug", b"x"), ("Link", b"none")])


def mixed(draw, lists):
    """Units of these lists of records, each list in its order, and some of VXID 0."""
    units, lists = [], {vxid: list(records) for vxid, records in lists.items()}
    while any(lists.values()):
        vxid = draw.choice([vxid for vxid, records in lists.items() if records])
        long = draw.randint(1, len(lists[vxid]))
        long = draw.choice([long, 1])
        units.append((vxid, draw.choice("cb-"), lists[vxid][:long]))
        lists[vxid] = lists[vxid][long:]
        if draw.random() < 0.1:
            units.append((0, "-", [draw.choice(OF_NONE)]))
    return units


def unruly(draw):
    """Records of a few VXIDs, made up without a rule."""
    units = []
    for _ in range(draw.randint(1, 14)):
        kind, reason = draw.choice([b"req", b"bereq", b"sess", b"x"]), draw.choice([b"rxreq", b"esi", b""])
        claim = b"%s %d %s" % (kind, draw.randint(0, 4), reason)
        time = ("Timestamp", b"a: %d 0 0" % draw.randint(0, 9))
        tags = [("Begin", claim), ("Begin", claim), ("Link", claim), time, ("End", b""), ("End", b""), ("Debug", b"")]
        units.append((draw.randint(0, 4), draw.choice("cb-"), [draw.choice(tags)]))
    return units


# What a record of a request or of a request to a backend may say, by its tag behind `Req` and `Bereq`.
STAMPS = [
    *[b"1672628645.123456", b"0", b"253402000000", b"253402000000.000000000000000001", b"-1", b"951782400.999999999"],
    *[b"1e3", b""],
]
TAKEN = [b"0.001500", b"0", b"-0.5", b"12.3456789", b"x", b"", b"000.000001"]
ADDRESSES = [b"192.0.2.7 50412 a0", b"::1 80 a0", b"", b"  x\ty"]
URLS = [b"/", b"/a?b?c", b"?", b"", b'/"\\\xe9\n', b"/shop/list?page=2"]
HEADERS = [
    *[b"Host: www.example.com", b"Host: http://a", b"Host: HTTP://a", b"host:b", b"Host:", b"Host : x"],
    *[b"Referer:\t\x7f\xc3\xa9 ", b"User-Agent: Mozilla/5.0 (X11)", b"X: ", b"X:", b"x: 1 2", b"XY: 3", b": empty"],
    b"Accept",
]
USERS = [
    *[b"Basic YWxpY2U6c2VjcmV0", b"basic  YTpi more", b"Basic YWxpY2U=", b"Basic YTpi=", b"Bearer YTpi", b"Basic"],
    *[b"Basic Ojo=", b"Basic YTpj", b"Basic YTpib", b"Basic YTo=", b"Basic YTp=", b"BASIC OmE", b"Basic YTr6Yf8="],
]
ACCTS = [b"412 0 412 198 0 198", b"1 2 3 4 5 6", b"1 2 3", b"1 2 3 4 00 6", b"", b" 90\t0 90 180 12 192 "]
STATUSES = [
    *[b"200", b"304", b"503", b"", b" 200\t", b"-200.9", b"-0", b"0.5", b"999999999999999999.999999999999999999"],
    *[b"200.", b"+1", b"1000000000000000000", b"000200.000000000000000000", b"2 00"],
]
CALLS = [b"HIT", b"MISS", b"PASS", b"PIPE", b"SYNTH", b"hit", b"RECV", b"HIT ", b"DELIVER"]
LABELS = [b"Start", b"Process", b"Resp", b"Beresp", b"BerespBody", b"start", b"Res"]


def of_server(draw, message):
    """A record as a server logs it of a request, or to the backend, whose tags begin with Req or Bereq."""
    answer = {"Req": "Resp", "Bereq": "Beresp"}[message]
    choices = [
        lambda: ("Timestamp", b"%s: %s %s 0.1" % tuple(map(draw.choice, (LABELS, STAMPS, TAKEN)))),
        lambda: (draw.choice([message, answer]) + "Header", draw.choice(HEADERS)),
        lambda: (message + "Header", b"Authorization: " + draw.choice(USERS)),
        lambda: (message + "Method", draw.choice([b"GET", b"POST", b""])),
        lambda: (message + "URL", draw.choice(URLS)),
        lambda: (message + "Protocol", draw.choice([b"HTTP/1.1", b"HTTP/2.0", b""])),
        lambda: (answer + "Status", draw.choice(STATUSES)),
        lambda: (message + "Acct", draw.choice(ACCTS)),
        lambda: ("ReqStart", draw.choice(ADDRESSES)),
        lambda: ("BackendOpen", draw.choice([b"25 main 10.0.0.9 8080", b"25 main", b"1 2 3 4"])),
        lambda: ("VCL_call", draw.choice(CALLS)),
        lambda: ("VCL_return", draw.choice([b"restart", b"Restart", b"hash", b"hash", b"deliver", b"deliver"])),
        lambda: ("VCL_Log", draw.choice([b"key: a", b"key:b\t", b"Key: c", b"k", b"ke y: d"])),
    ]
    return draw.choice(choices)()


def served(draw, most=6):
    """A log of requests, fetches and sessions with what a server logs of them."""
    lists = {}
    for vxid in draw.sample(range(1, 40), draw.randint(1, most)):
        kind = draw.choice([b"req", b"req", b"req", b"bereq", b"bereq", b"sess"])
        reason = draw.choice([b"rxreq", b"rxreq", b"esi", b"restart", b"fetch", b""])
        message = "Bereq" if kind == b"bereq" else "Req"
        records = [of_server(draw, message if draw.randrange(8) else "Req") for _ in range(draw.randint(0, 10))]
        begun = ("Begin", b"%s %d %s" % (kind, draw.choice([0, 1, vxid - 1]), reason))
        begins, ends = [begun] * (draw.randrange(10) > 0), [("End", b"")] * (draw.randrange(10) > 0)
        lists[vxid] = [*begins, *records, *ends] or [begun]
    return mixed(draw, lists)


# Words of a unit: about as many as one has that is written, or two, and about as many as one has that is read.
WIDE = [MOST_WRITTEN + more for more in (-1, 0, 1, 2, 3, 4464)] + [2 * MOST_WRITTEN + more for more in (-2, -1, 0, 1)]
WIDEST = [MOST_WORDS + more for more in (-1, 0, 0, 1, 2)]
LONG, SHORT = [1003, 1003, 1002, 701], [1003, 258, 34, 7, 4, 3]  # words of a record
LEAST, LONGEST = 3, 1003


def filled(draw, words, long):
    """Records of exactly so many words."""
    size = draw.choice(LONG if long else SHORT)
    count = (words - LEAST) // size
    rest = words - size * count
    rests = [rest] if rest <= LONGEST else [LEAST, rest - LEAST]
    letter = draw.choice([b"a", b"b", b"\xe9", b"\x01"])
    body = [of_words(draw, size, letter)] * count
    return body + [of_words(draw, size, letter) for size in rests]


def of_words(draw, words, letter):
    """A record of so many words."""
    return draw.choice(["VCL_Log", "ReqURL", "Debug"]), letter * max(4 * (words - LEAST) - draw.choice([0, 0, 1, 3]), 0)


def wide(draw):
    """A log with a unit about as wide as one or two that are written, seldom about as wide as any that is read."""
    vxid, mark, is_widest = draw.choice([1, 7, MOST_VXID]), draw.choice("ccb-"), draw.randrange(6) == 0
    begins = draw.choice([[("Begin", b"req 0 rxreq")], [("Begin", b"bereq 3 fetch")], []])
    ends = draw.choice([[("End", b"")], [("End", b"")], []])
    words = draw.choice(WIDEST if is_widest else WIDE) - unit_words(begins + ends)
    before = draw.choice([[], [(vxid, draw.choice("cb-"), [draw.choice(OTHERS)])], [(2, "c", [("End", b"")])]])
    behind = draw.choice([[], [(vxid, mark, [("End", b"")])], [(0, "-", [("CLI", b"Rd ping")]), (2, "b", [OTHERS[0]])]])
    return [*before, (vxid, mark, begins + filled(draw, words, is_widest) + ends), *behind]


def any_log(draw):
    """A log of one of these kinds, not a long one."""
    return draw.choice([regular, served, served, lambda one: hostile(one, 10)])(draw)
