"""Times a feed of 16 MiB, put into the largest ring and printed as raw lines, beside a log file of its lines.

The feed is the lines of the real log again and again; the log file has a unit for each of its records, and is written
by the program from the feed. Of the ratio at most 1.5 is wanted. Then four such feeds, each with VXIDs of its own, are
put by workers on threads, beside the same feeds one after the other: the median of runs in turn, through rings of 64 to
1,048,576 words a segment, with the overruns that were told. A reader that is overrun prints fewer lines: one that comes
after such feeds only the last ones of a ring.
"""

import os
import re
import statistics
import sys
import tempfile

from logs import MEBIBYTE
from timing import RUNS, run

WANTED = 1.5
MOST_BYTES = 16 * MEBIBYTE
LARGEST_RING = "1048576"
RINGS = ("64", "512", "4096", "16384", "65536", "262144", LARGEST_RING)
FEEDS = 4
# How far the VXIDs of a feed are behind those of the one before.
VXIDS = 100_000_000
OVERRUN = re.compile(r"vtools: log overrun at segment \d+, counter \d+")
MISSED = re.compile(r"vtools: missed \d+ units")
RAW = ["varnishlog", "-g", "raw"]


def run_fed(words):
    """Runs a command: what it took, and the overruns it told. Another message ends this."""
    with tempfile.TemporaryFile() as errors:
        taken = run(words, errors=errors)
        errors.seek(0)
        told = errors.read().decode().splitlines()
    overruns = sum(bool(OVERRUN.fullmatch(line)) for line in told)
    if overruns + sum(bool(MISSED.fullmatch(line)) for line in told) < len(told):
        sys.exit(f"{words[0]}: {told[-1]}")
    return taken, overruns


def run_in_turn(commands):
    """Runs each command several times, in turn, so that what else the machine does falls on all: the runs of each."""
    return list(zip(*[[run_fed(words) for words in commands] for _ in range(RUNS)]))


def report(label, middle, runs, size):
    """Prints the time of a command's runs, the largest peak and the overruns, and answers the time."""
    seconds = middle(taken.seconds for taken, _ in runs)
    peak = max(taken.peak for taken, _ in runs)
    overruns = statistics.median_low(told for _, told in runs)
    print(f"{label:36}{size:>10} bytes {seconds:8.4f} s {size / seconds / 1e6:7.1f} MB/s  peak {peak:6.1f} MiB"
          f"{overruns:>7} overruns")
    return seconds


def with_vxids_from(first, lines):
    """The lines with VXIDs that are so much greater, but for those of no transaction."""
    shifted = [b"%10d" % (int(line[:10]) and int(line[:10]) + first) + line[10:] for line in lines.split(b"\n")[:-1]]
    return b"\n".join(shifted) + b"\n"


def time_one(program, feed, size):
    """Times one feed in two orders and on a thread beside a log file of its lines."""
    log = feed + ".vslog"
    feeds = [program, "--feed", feed, "--ring", LARGEST_RING]
    run_fed([*feeds, "--feed-first", *RAW, "-w", log])
    commands = {
        "-r FILE": [program, *RAW, "-r", log],
        "--feed FILE --feed-first": [*feeds, "--feed-first", *RAW],
        "--feed FILE --turns 7": [*feeds, "--turns", "7", *RAW],
        "--feed FILE": [*feeds, *RAW],
    }
    print(f"least of {RUNS} runs in turn, largest peak; MB/s of lines")
    of_log, *of_feed = (report(label, min, runs, size) for label, runs in zip(commands, run_in_turn(commands.values())))
    for label, seconds in zip([*commands][1:], of_feed):
        print(f"ratio of {label}: {seconds / of_log:.2f}, of which at most {WANTED} is wanted")


def time_all(program, feeds, size):
    """Times several feeds on threads beside the same, one after the other, in rings of several sizes."""
    named = [program, *(word for feed in feeds for word in ("--feed", feed))]
    print(f"{len(feeds)} feeds, median of {RUNS} runs in turn, largest peak; MB/s of lines")
    for ring in RINGS:
        rings = [*named, "--ring", ring]
        on_threads, stated = run_in_turn([[*rings, *RAW], [*rings, "--feed-first", *RAW]])
        ours = report(f"--ring {ring}", statistics.median, on_threads, size)
        theirs = report(f"--ring {ring} --feed-first", statistics.median, stated, size)
        print(f"ratio on threads: {ours / theirs:.2f}")


def bench(program, _):
    with open("examples/real-1.raw", "rb") as source:
        lines = source.read()
    copies = MOST_BYTES // len(lines)
    size = copies * len(lines)
    with tempfile.TemporaryDirectory() as folder:
        names = [os.path.join(folder, f"feed-{number}") for number in range(FEEDS)]
        for number, name in enumerate(names):
            with open(name, "wb") as file:
                file.write(with_vxids_from(number * VXIDS, lines) * copies)
        time_one(program, names[0], size)
        time_all(program, names, FEEDS * size)
