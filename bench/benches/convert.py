"""Times `convert` of log files of 1 GiB, of either version, beside `cp` of the same file, and tells the peak of memory."""

import os
import tempfile

import vslog
from logs import MEBIBYTE, real_units, repeat
from timing import best, run

RUNS = 3
MOST = 1024 * MEBIBYTE


def bench(program, _):
    print(f"least of {RUNS} runs; MB/s of log")
    with tempfile.TemporaryDirectory() as folder:
        log, out = os.path.join(folder, "log"), os.path.join(folder, "out")
        commands = {
            "convert IN OUT": ([program, "convert", log, out], "/dev/null"),
            "convert - OUT": ([program, "convert", "-", out], log),
            "cp": (["cp", log, out], "/dev/null"),
        }
        for version in vslog.VERSIONS:
            units = real_units(version)
            size = repeat(log, version.header, units, MOST // len(units))
            for label, (words, source) in commands.items():
                of = best([run(words, source) for _ in range(RUNS)])
                speed = f"{of.seconds:8.3f} s {size / of.seconds / 1e6:8.1f} MB/s  peak {of.peak:6.1f} MiB"
                print(f"{version.header[:7].decode()} {label:14} {size:>11} bytes {speed}")
