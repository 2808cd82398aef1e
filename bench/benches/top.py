"""Times `varnishtop -1` over the real log repeated, up to 625,000 and 10,000,000 records, beside varnishlog's text.

The peak of memory goes with the number of different records and not with the log.
"""

import os
import shutil
import tempfile

import vslog
from logs import REAL, real_units, repeat, varnish_records
from timing import best, run
from varnish_log import NARROW

RUNS = 3
RECORDS = 10_000_000
PARTS = (16, 1)


def measure(label, words, count):
    """Prints the least time of a command's runs and the largest peak, and answers the time."""
    of = best([run(words) for _ in range(RUNS)])
    speed = f"{of.seconds:9.4f} s {count / of.seconds / 1e6:8.2f} M/s  peak {of.peak:7.1f} MiB"
    print(f"{label:22}{count:>11} records {speed}")
    return of.seconds


def over_many_records(program, commands, wanted):
    """Times command lines of a tool, the first beside Varnish's own where it is installed, and varnishlog.

    Varnish's own reads the same records, in a log file of its own layout; at most so much of the ratio is wanted.
    """
    tool = commands[0][0]
    own_tool, data = shutil.which(tool), REAL.read_bytes()
    in_one = sum(len(records) for _, _, records in vslog.read_units(data))
    theirs = varnish_records(data) if own_tool else b""
    print(f"least of {RUNS} runs, largest peak" + ("" if own_tool else f"; Varnish's {tool} is not installed"))
    with tempfile.TemporaryDirectory() as folder:
        log, own = os.path.join(folder, "log"), os.path.join(folder, "own")
        for part in PARTS:
            copies = RECORDS // part // in_one
            count = copies * in_one
            repeat(log, vslog.HEADER, real_units(), copies)
            times = [
                measure(" ".join(word for word in words if "%" not in word), [program, *words, "-r", log], count)
                for words in [*commands, ["varnishlog"]]
            ]
            if own_tool:
                repeat(own, NARROW.file_mark, theirs, copies)
                took = measure(f"Varnish's {tool}", [own_tool, *commands[0][1:], "-r", own], count)
                print(f"{'ratio':22}{times[0] / took:19.3f}, of which at most {wanted} is wanted")


def bench(program, _):
    over_many_records(program, [["varnishtop", "-1"], ["varnishtop", "-1", "-f"]], 0.1)
