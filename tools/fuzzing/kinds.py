"""The kinds of cases: what each draws, as command lines over files; and which logs' groups are told at once."""

import struct

from checks.streams import BUSY, CLOSED, FILE, FULL, GONE
from fuzzing import command_words, listings, logs, texts
from fuzzing.command_lines import CommandLine, Streams
from fuzzing.engine import Kind
from fuzzing.files import Bytes, Folder, Log
from fuzzing.partitions import Partition
from vtools import FULL_DEVICE
from words import GROUPINGS

MOST_LIMIT, MOST_TIMEOUT = 14, 5
PREFIXES = 251  # of a long log
MOST_SEED = 65536
TELLING_BYTES = [0, 1, 2, 0x2A, 0x2C, 0x40, 0x5D, 0x80, 0xC0, 0xFE, 0xFF]  # of the words of a unit
TELLING_WORDS = [
    *[0xFE000002, 0xFE000003, 0xFE000004, 0xFE100001, 0xFE200000, 0xFE200001, 0xFE0000FF, 0xFF000004],  # headers of units
    *[0x00000000, 0x01000000, 0x5C000004, 0x5D000000, 0x2A000FA0, 0x2A000FA1, 0x2A010000],  # tags and lengths
    *[0x40000000, 0x80000000, 0xC0000000, 0x40000001, 0xC0000001, 0x3FFFFFFF, 0x7FFFFFFF, 0xBFFFFFFF],  # marks and VXIDs
]
GLOBS = ["*", "*shm*", "MAIN.*_*", "*s*s*", "MAIN.cache_hit", "cache_hit", "*.s_re*y*", "", "**q", "main.*", "MAIN.?*"]


def limits(draw):
    """Options for a limit, a timeout, and how many groups are taken, most of the time not all three."""
    limit, timeout, most = draw.randint(1, MOST_LIMIT), draw.randint(1, MOST_TIMEOUT), draw.randint(1, 9)
    chosen = [draw.choice([limit, limit, None]), draw.choice([timeout, None]), draw.choice([None] * 7 + [most])]
    return [word for option, value in zip(("-L", "-T", "-k"), chosen) if value for word in (option, str(value))]


def asked(queries):
    """The words of queries."""
    return [word for text in queries for word in ("-q", text)]


def of_log(tool, *words, log):
    """A command line over a log on standard input."""
    once = ["-1"] if tool == "varnishtop" else []
    return CommandLine([tool, *once, *words, "-r", "-"], {}, log)


def log_of(draw, units):
    """A log file of these units, in a version that has words for them."""
    log = Log(units)
    return log._replace(version=draw.choice(log.versions()))


def groups(draw, _):
    """A hostile log under a grouping: all of its groups, those that queries take, or a report."""
    log, options = log_of(draw, logs.hostile(draw)), [*limits(draw), "-g", draw.choice(GROUPINGS)]
    queries = asked(texts.of_query(draw, 4) for _ in range(draw.choice([1, 1, 2])))
    listed = ("varnishlog", draw.choice([[], ["-v"]]))
    tool, more = draw.choice([listed, ("varnishlog", queries), ("varnishtop", draw.choice([[], queries]))])
    yield of_log(tool, *options, *more, log=log)


def growing(draw, count):
    """So many units of a long log, under each grouping."""
    units = logs.Hostile(draw).units(count)
    for grouping in GROUPINGS:
        options = ["-L", str(MOST_LIMIT), "-T", str(2 * MOST_TIMEOUT), "-g", grouping]
        yield of_log("varnishlog", *options, log=Log(units))


def regular(draw, _):
    """A regular log under a grouping, as text, and as access lines."""
    log, grouping = Log(logs.regular(draw)), draw.choice(GROUPINGS[1:])
    queries = draw.choice([[], asked([texts.of_query(draw, 3)])])
    yield of_log("varnishlog", "-g", grouping, *queries, log=log)
    sides = draw.choice(["-b", "-c", "-E", "-bE"])
    yield of_log("varnishncsa", sides, *draw.choice([[], ["-g", "request"]]), "-F", texts.access_format(draw), log=log)


def changed(draw, data):
    """The bytes of a log with an end cut off, or a word or some bytes changed, put in or left out."""
    at, size, kind = draw.randint(0, len(data)), draw.choice([1, 1, 4, 8]), draw.randrange(3)
    if kind == 0:
        return data[:at]
    if kind == 1:
        return data[: at - at % 4] + struct.pack("<I", draw.choice(TELLING_WORDS)) + data[at - at % 4 + 4 :]
    put = bytes(draw.choice([*TELLING_BYTES, draw.randrange(256)]) for _ in range(size))
    before, here, behind = data[:at], data[at : at + size], data[at + size :]
    return draw.choice([before + put + behind, before + put + here + behind, before + behind, data + put])


def cut(draw, _):
    """A log file that is cut or has other bytes: its groups up to there, what is written of them, lines, a report."""
    data = log_of(draw, logs.any_log(draw)).data()
    for _ in range(draw.choice([1, 1, 2])):
        data = changed(draw, data)
    tool = draw.choice(["varnishlog", "varnishlog", "varnishlog", "varnishncsa", "varnishtop"])
    grouping = ["-g", draw.choice(GROUPINGS)] if tool != "varnishncsa" else ["-bE"]
    words = [tool, *["-1"] * (tool == "varnishtop"), *grouping, *limits(draw)]
    words += ["-w", "out"] if tool != "varnishtop" and draw.randrange(4) == 0 else []
    yield CommandLine([*words, "-r", "f"], {"f": Bytes(data)})
    yield CommandLine(["convert", "f", draw.choice(["out", "-"])], {"f": Bytes(data)})


def words(draw, _):
    """A command line of any tool, often with a fault, in a folder that has what its words name, or lacks it."""
    log = Log(logs.any_log(draw))
    texts_of_files = {"a": b"2 Begin c req 1 rxreq\n2 End c\n", "b": b"4 Hit c 2\n", "bad": b"2 End c\nx\n"}
    texts_of_files |= {"q": b"# all\nEnd or Begin\n", "old": b"old", "cut": log.data()[:-1]}
    files = {"f": log, "folder": Folder()} | {name: Bytes(text) for name, text in texts_of_files.items()}
    yield CommandLine(command_words.words(draw), files, log)


def queries(draw, _):
    """A text of a query, asked of a log, in a word or in a file, also beside another."""
    log, text = Log(logs.any_log(draw)), texts.query(draw)
    more = draw.choice([[], [], ["-C"], asked([texts.of_query(draw, 2)]), ["-k", "2"]])
    options = ["-g", draw.choice(GROUPINGS), *more]
    if draw.randrange(4):
        yield of_log("varnishlog", *options, "-q", text, log=log)
    else:
        data = text.encode()
        data = changed(draw, data) if draw.randrange(4) == 0 else data
        yield CommandLine(["varnishlog", *options, "-Q", "q", "-r", "-"], {"q": Bytes(data)}, log)


def formats(draw, _):
    """A format, over a log as a server writes it."""
    sides, log = draw.choice([[], ["-b"], ["-c"], ["-E"], ["-bc"], ["-bE"]]), Log(logs.served(draw))
    more = draw.choice([[], [], ["-g", "request"], ["-k", "2"], asked([texts.of_query(draw, 2)])])
    given = ["-F", texts.access_format(draw)] if draw.randrange(8) else []
    yield of_log("varnishncsa", *sides, *more, *given, log=log)


def selection(draw, _):
    """Rules and sides, over a log, as text and as a log file that is written."""
    rules = [word for _ in range(draw.choice([0, 1, 1, 2, 3])) for word in texts.rule(draw)]
    flags = [flag for flag in ("-b", "-c", "-E", "-v", "-C") if draw.randrange(6) == 0]
    asks = asked([texts.of_query(draw, 2)]) if draw.randrange(6) == 0 else []
    words = ["varnishlog", *flags, *rules, *asks, "-g", draw.choice(GROUPINGS)]
    old = {"out": Bytes(draw.choice([b"", b"old"]))} if draw.randrange(3) == 0 else {}
    written = draw.choice([[], [], ["-w", "out"], ["-aw", "out"], ["-Aw", "out"], ["-aAw", "out"], ["-w", "-"]])
    yield CommandLine([*words, *written, "-r", "-"], old, log_of(draw, logs.any_log(draw)))


def fed(draw, _):
    """Listings through a ring in a stated order, or on threads: as records, groups, lines, reports and counters."""
    files = {name: Bytes(listings.listing(draw)) for name in draw.sample(["a", "b", "c"], draw.choice([1, 1, 2, 2, 3]))}
    before = [word for name in files for word in ("--feed", name)]
    before += ["--ring", draw.choice(["64", "64", "65", "80", "128"])] if draw.randrange(5) else []
    before += ["--reclen", draw.choice(["16", "17", "100", "4000"])] if draw.randrange(3) == 0 else []
    before += ["--gen", f"{draw.randint(1, 12)},{draw.randint(0, MOST_SEED)}"] if draw.randrange(5) == 0 else []
    turns = ["--turns", str(draw.randint(0, MOST_SEED))]
    before += draw.choice([["--feed-first"], turns, turns, []])
    after = [["varnishlog", "-g", "raw"], ["varnishlog", "-g", draw.choice(GROUPINGS[1:]), *limits(draw)]]
    after += [["varnishtop", "-1", "-g", "raw"]]
    after += [["varnishncsa", "-bE"], ["varnishtop", "-1", *limits(draw)]]
    after += [["varnishstat", draw.choice(["-1", "-j"])]] * 2
    after += [["varnishstat", draw.choice(["-1", "-j", "-l"]), "-f", draw.choice(GLOBS), "-f", draw.choice(GLOBS)]]
    yield CommandLine([*before, *draw.choice(after)], files)


def top(draw, _):
    """A report, of texts or of first fields."""
    words = draw.choice([[], ["-f"]]) + (texts.rule(draw) if draw.randrange(3) == 0 else [])
    words += draw.choice([[], [], ["-b"], ["-c"], ["-E"], ["-C"]])
    asks = asked([texts.of_query(draw, 2)]) if draw.randrange(5) == 0 else []
    yield of_log("varnishtop", *words, *asks, *limits(draw), "-g", draw.choice(GROUPINGS), log=Log(logs.any_log(draw)))


def wide(draw, _):
    """A log with a wide unit, whole or cut: as lines or groups, as written units, as access lines, as a report."""
    log = Log(logs.wide(draw))
    file = Bytes(changed(draw, log.data())) if draw.randrange(6) == 0 else log
    rules = texts.rule(draw) if draw.randrange(4) == 0 else []
    some = draw.choice([[], [], limits(draw), asked([texts.of_query(draw, 2)])])
    groups = ["-g", draw.choice(GROUPINGS)]
    written = draw.choice([[], ["-w", "out"], ["-w", "out"], ["-aw", "out"], ["-Aw", "out"]])
    lines = ["varnishlog", *groups, *rules, *some, *written]
    report = ["varnishtop", "-1", *groups, *rules, *some]
    words = draw.choice([lines, lines, lines, report, ["varnishncsa", "-bE", *some]])
    old = {"out": Bytes(b"old")} if draw.randrange(4) == 0 else {}
    yield CommandLine([*words, "-r", "f"], {"f": file} | old)


def unwritten(draw, _):
    """A command line of another kind, where streams or files take nothing, or so many bytes."""
    made = draw.choice([regular, regular, cut, words, queries, formats, *[selection] * 3, *[fed] * 4, top])
    case = draw.choice(list(made(draw, 0)))
    if draw.randrange(4) == 0:
        case = case._replace(words=[FULL_DEVICE if word == "out" else word for word in case.words])
    most = draw.choice([None, None, 0, 1, 8, draw.randrange(60), draw.randrange(600), draw.randrange(3000)])
    takes = [FULL, CLOSED, GONE, BUSY] if most is None else [FILE] * 7 + [FULL]
    out, errors = draw.choice([*takes, ""]), draw.choice([*takes, *[""] * len(takes)])
    yield case._replace(streams=Streams(out, errors, most))


def parted(draw, _):
    """The groups of a regular and calm log, and of one that was made up without a rule."""
    for made in logs.regular, logs.unruly:
        grouping, limit, timeout = draw.choice(GROUPINGS[1:]), draw.choice([2, 4, 9, 16]), draw.choice([0, 2, 6, 20])
        yield Partition(made(draw), grouping, limit, timeout)


KINDS = {
    "groups": Kind("hostile logs under all groupings, with queries and small limits", groups, 3600),
    "growing": Kind("each prefix of a long hostile log under all groupings", growing, PREFIXES, PREFIXES),
    "regular": Kind("regular logs", regular),
    "cut": Kind("log files that are cut, or have changed bytes", cut),
    "words": Kind("words of all tools, and their first fault", words),
    "queries": Kind("texts of queries, and their first fault", queries),
    "formats": Kind("formats of access lines, and their fault", formats),
    "selection": Kind("what is shown, and what is written of it", selection),
    "listings": Kind("feeds, their bad lines and cuts, overruns, and counters", fed),
    "top": Kind("reports of varnishtop", top),
    "wide": Kind("units of more words than those that are written, up to the most that are read", wide, 40),
    "unwritten": Kind("streams and files that are full or closed, at once or behind some bytes", unwritten, 400),
    "partition": Kind("groups of whole logs, told at once; no program runs", parted, 4000, claimed=0.25),
}
