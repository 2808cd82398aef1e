"""Times vslog over a log of Varnish of about 500 MB and over the text of the same log, beside `cat` and varnishlog.

The log is that of examples/, its records again and again. What is written goes to /dev/null. From a file a command has
one processor, and through a pipe it has another than `cat` before it, where there are two.
"""

import os
import shutil
import sys
import tempfile

from logs import repeat
from timing import in_turn
from varnish_log import NARROW

RUNS = 3
MOST_BYTES = 500_000_000
LOG, TEXT = "examples/varnish.vsl", "examples/varnish.raw"
PIPED = 'taskset -c "$1" cat "$2" | { shift 2; exec taskset -c "$@"; }'


def made_logs(folder):
    """The two logs, each with its size."""
    with open(LOG, "rb") as log, open(TEXT, "rb") as text:
        records, lines = log.read()[len(NARROW.file_mark) :], text.read()
    copies, paths = MOST_BYTES // len(records), [os.path.join(folder, name) for name in ("log.vsl", "log.raw")]
    return [
        (paths[0], repeat(paths[0], NARROW.file_mark, records, copies)),
        (paths[1], repeat(paths[1], b"", lines, copies)),
    ]


def bench(_, given):
    if shutil.which(given.vslog) is None:
        sys.exit(f"not there: {given.vslog}")
    processors = sorted(str(number) for number in os.sched_getaffinity(0))
    first, other = processors[0], processors[-1]
    with tempfile.TemporaryDirectory(dir=given.logs) as folder:
        (log, log_size), (text, text_size) = made_logs(folder)
        rows = [("binary, FILE", log_size, ["taskset", "-c", first, given.vslog, "-q", log])]
        rows += [("text, -t FILE", text_size, ["taskset", "-c", first, given.vslog, "-q", "-t", text])]
        for label, words in (("binary, a pipe", [given.vslog, "-q"]), ("the same pipe into cat", ["cat"])):
            rows.append((label, log_size, ["sh", "-c", PIPED, "sh", other, log, first, *words]))
        if shutil.which("varnishlog"):
            words = ["taskset", "-c", first, "varnishlog", "-g", "raw", "-r", log]
            rows.append(("varnishlog -g raw -r FILE", log_size, words))
        else:
            print("varnishlog isn't installed")
        print(f"least of {RUNS} runs in turn, largest peak; MB/s of what is read; load {os.getloadavg()[0]:.1f} before")
        for (label, size, _), of in zip(rows, in_turn([words for _, _, words in rows], RUNS)):
            speed = f"{of.seconds:8.3f} s {size / of.seconds / 1e6:8.1f} MB/s"
            print(f"{label:26} {size:>11} bytes {speed}  user {of.user:7.3f} s  peak {of.peak:6.1f} MiB")
