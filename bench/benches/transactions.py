"""Times each grouping: transactions that are open at once, others one after another, and the real log up to 20 MB.

All of the first four name one session. Where Varnish's own varnishlog is installed, it is timed on the same records
beside the program, in a log file of its own layout, and of the ratio at most 0.6 is wanted.
"""

import os
import shutil
import tempfile

import vslog
from logs import real_units, repeat, varnish_records
from timing import RUNS, run
from varnish_log import NARROW

GROUPINGS = ["vxid", "request", "session", "raw"]
BEGIN, MIDDLE, END = ("Begin", b"req 1 rxreq"), ("Debug", b"in the middle"), ("End", b"")
LIMIT = ["-L", "4000"]


def open_at_once(count):
    """All transactions begin, each goes on, and then each ends, in the order in which they began."""
    return b"".join(vslog.unit(v, "c", [rec]) for rec in (BEGIN, MIDDLE, END) for v in range(1, count + 1))


def one_after_another(count):
    """Each transaction begins and ends before the next."""
    return b"".join(vslog.unit(v, "c", [BEGIN, MIDDLE, END]) for v in range(1, count + 1))


def times_of(words, path):
    """The least seconds under each grouping."""
    commands = [[*words, *LIMIT, "-g", grouping, "-r", path] for grouping in GROUPINGS]
    return [min(run(command).seconds for _ in range(RUNS)) for command in commands]


def print_times(label, size, times, digits=4):
    print(f"{label:26}{size:>10}" + "".join(f"{seconds:12.{digits}f}" for seconds in times))


def bench(program, _):
    varnishlog, real = shutil.which("varnishlog"), real_units()
    cases = [
        ("2,000 open at once", open_at_once(2000), 1),
        ("4,000 open at once", open_at_once(4000), 1),
        ("25,000 one after another", one_after_another(25000), 1),
        ("50,000 one after another", one_after_another(50000), 1),
        ("real log, repeated", real, 20_000_000 // len(real)),
    ]
    print(f"{' '.join(LIMIT)}, seconds; least of {RUNS} runs")
    print(f"{'':26}{'bytes':>10}" + "".join(f"{'-g ' + grouping:>12}" for grouping in GROUPINGS))
    with tempfile.TemporaryDirectory() as folder:
        path, own = os.path.join(folder, "log"), os.path.join(folder, "own")
        for what, units, copies in cases:
            size = repeat(path, vslog.HEADER, units, copies)
            ours = times_of([program, "varnishlog"], path)
            print_times(what, size, ours)
            if varnishlog:
                size = repeat(own, NARROW.file_mark, varnish_records(vslog.HEADER + units), copies)
                theirs = times_of([varnishlog], own)
                print_times("  Varnish", size, theirs)
                print_times("  ratio", "", [a / b for a, b in zip(ours, theirs)], 2)
