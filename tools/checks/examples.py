"""Makes the texts of examples/ again by independent scripts, and compares them with the files and with the program.

The reports of varnishtop are compared with what is counted in the same texts, and the access lines of varnishncsa with
what tools/reference/access_lines.py makes of the raw lines.
"""

import collections
import re

from checks.running import TOP, Failed, Run, compare, made_by, run, same_run, same_text

LOG = "examples/real-1.vslog"
RAW = "examples/real-1.raw"
GROUPINGS = ["raw", "vxid", "request", "session"]
SHORT = ["-F", "%h %{Varnish:hitmiss}x %s %b %D"]


def records_of(grouping, text):
    """The tag at the left of 14 columns, a space and the payload of each record of a text of examples/."""
    lines = text.split(b"\n")[:-1]
    if grouping == "raw":
        return [line[11:26] + line[28:] for line in lines]
    shown = (re.match(rb"(-{1,3} {1,3}|-[0-9]*- )", line) for line in lines)
    return [line[start.end() :] for line, start in zip(lines, shown) if start]


def report(records):
    """The report of such records: each once with its count, the highest count first.

    As in the program's order a name that begins another comes first, because a space is the least byte of these lines.
    """
    if not records:
        raise Failed("no record of examples/ is wanted")
    counts = sorted(collections.Counter(records).items(), key=lambda counted: (-counted[1], counted[0]))
    return b"".join(b"%10d %s\n" % (count, record) for record, count in counts)


def access_lines(*options):
    """The access lines that are wanted."""
    lines = made_by("tools/reference/access_lines.py", *options, RAW)
    if not lines:
        raise Failed("no access line is wanted")
    return lines


def sorted_lines(text):
    return b"".join(sorted(text.splitlines(keepends=True)))


def of_texts(program, texts):
    """The four texts, which are made again and printed by the program."""
    for grouping in GROUPINGS:
        made = made_by("tools/reference/vtools.py", "varnishlog", "-g", grouping, "-r", LOG)
        same_text(f"examples/real-1.{grouping}, as tools/reference/vtools.py makes it,", made, texts[grouping])
        compare(program, ["varnishlog", "-g", grouping, "-r", LOG], texts[grouping])
    return 2 * len(GROUPINGS)


def of_reports(program, texts):
    """Reports of all records of each text, of first fields and of one tag."""
    records = {grouping: records_of(grouping, texts[grouping]) for grouping in GROUPINGS}
    # the first field stands behind the name's columns, and nothing where the payload has none
    fields = [record[:15] + (record.split() + [b""])[1] for record in records["vxid"]]
    urls = [record for record in records["vxid"] if record.startswith(b"ReqURL ")]
    wanted = [(["-g", grouping], records[grouping]) for grouping in GROUPINGS]
    wanted += [([], records["vxid"]), (["-f"], fields), (["-i", "ReqURL"], urls)]
    for options, counted in wanted:
        compare(program, ["varnishtop", "-1", *options, "-r", LOG], report(counted))
    return len(wanted)


def of_lines(program):
    """Access lines of each side in two formats, and by request, where the same lines stand in another order."""
    sides = [["-c"], ["-E"], ["-b"], ["-bc"], ["-bE"], []]
    for side in sides:
        compare(program, ["varnishncsa", *side, "-r", LOG], access_lines(*side))
        compare(program, ["varnishncsa", *side, *SHORT, "-r", LOG], access_lines(*side, *SHORT))
    came = run([program, "varnishncsa", "-bE", "-g", "request", "-r", LOG])
    ordered = came._replace(stdout=sorted_lines(came.stdout))
    same_run("varnishncsa -bE -g request, sorted", Run(0, b"", sorted_lines(access_lines("-bE"))), ordered)
    return 2 * len(sides) + 1


def check(program):
    texts = {grouping: (TOP / f"examples/real-1.{grouping}").read_bytes() for grouping in GROUPINGS}
    return f"{of_texts(program, texts) + of_reports(program, texts) + of_lines(program)} texts, reports and access logs"
