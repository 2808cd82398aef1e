"""Times many transactions that are pending at once, beside the times that are wanted: requests that all begin before any
ends, and a chain of requests of which each is below the one before.
"""

import os
import shlex
import tempfile

import made_logs
from benches.beside_varnish import folder_for
from timing import best, run
from vslog import HEADER

RUNS = 3
MOST = 1_000_000  # as many may be pending
COUNTED = ["varnishtop", "-1", "-g", "request", "-L", str(MOST), "-i", "End"]
PRINTED = ["varnishlog", "-g", "request", "-L", str(MOST)]
FEW, FEW_SECONDS, MOST_SECONDS = 300_000, 2, 5
MOST_TIMES = 4  # of the time of the few, for the most


def timed(program, folder, kind, count, words):
    """Prints the least seconds of a command over a log that is made, and answers them."""
    log = os.path.join(folder, "log")
    with open(log, "wb") as file:
        file.write(HEADER)
        file.writelines(made_logs.LOGS[kind](count))
    of = best([run([program, *words, "-r", log]) for _ in range(RUNS)])
    size = os.path.getsize(log)
    print(f"| {kind:16} | {count:9} | {size:10} | {of.seconds:7.3f} | {of.peak:7.1f} | `{shlex.join(words)}` | ", end="")
    return of.seconds


def bench(program, _):
    print(f"least of {RUNS} runs, largest peak\n")
    print("| Log              |  requests |      bytes | seconds |     MiB | Command | wanted, at most |")
    print("|---|---:|---:|---:|---:|---|---|")
    with tempfile.TemporaryDirectory(dir=folder_for(1 << 27)) as folder:
        few = timed(program, folder, "begun_then_ended", FEW, COUNTED)
        print(f"{FEW_SECONDS} seconds |", flush=True)
        timed(program, folder, "begun_then_ended", MOST, COUNTED)
        print(f"{MOST_TIMES} times as long: {MOST_TIMES * few:.3f} |", flush=True)
        timed(program, folder, "chain", MOST, PRINTED)
        print(f"{MOST_SECONDS} seconds |")
