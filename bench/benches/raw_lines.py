"""Times the raw lines of log files of 16 MiB and of 1 GiB beside `cat` of the same file, by name and through a pipe."""

import os
import tempfile

from logs import MEBIBYTE, fill
from timing import best, run

RUNS = 3


def bench(program, _):
    print(f"least of {RUNS} runs; MB/s of log")
    with tempfile.TemporaryDirectory() as folder:
        log = os.path.join(folder, "log")
        tool = [program, "varnishlog"]
        commands = {
            "-r FILE": ([*tool, "-g", "raw", "-r", log], "/dev/null"),
            "-r -": ([*tool, "-g", "raw", "-r", "-"], log),
            "-w -": ([*tool, "-w", "-", "-r", log], "/dev/null"),
            "-g vxid": ([*tool, "-r", log], "/dev/null"),
            "cat": (["cat", log], "/dev/null"),
        }
        for most in (16 * MEBIBYTE, 1024 * MEBIBYTE):
            size = fill(log, most)
            for label, (words, source) in commands.items():
                of = best([run(words, source) for _ in range(RUNS)])
                speed = f"{of.seconds:8.3f} s {size / of.seconds / 1e6:8.1f} MB/s  peak {of.peak:6.1f} MiB"
                print(f"{label:12} {size:>11} bytes {speed}")
