"""Runs feeds on threads through small rings, where the reader is overrun, and counts: what a run took and what it told as
missed are all units that were put, however the threads ran.

Each record of the feeds is of no transaction, so each is a unit and has a line. The runs have one feed and four, and rings
of several sizes; in some what takes the output is stopped by a signal again and again, so that the reader waits and the
writers go on, and in some the program itself is.
"""

import contextlib
import os
import re
import signal
import subprocess
import tempfile
import time

from checks.running import MOST_SECONDS, Failed, temporary_folder

LINES = 20_000  # of a feed
SIZES = [1, 7, 33, 90, 120, 200]  # bytes of payloads
FEEDS = (1, 4)
SEGMENTS = (64, 256, 1024)
STOPS = ("nothing", "the reader of the output", "the program")
ROUNDS = 2
STOPPED = 0.004  # seconds, and as long it goes on
OVERRUN = re.compile(rb"vtools: log overrun at segment (\d+), counter (\d+)\n")
MISSED = re.compile(rb"vtools: missed (\d+) units\n")


def feed_of(number):
    """A listing of records of no transaction, each of which tells its feed and its number."""
    lines = (f"{0:10} VCL_Log        - {number}:{line}:{'x' * SIZES[line % len(SIZES)]}\n" for line in range(LINES))
    return "".join(lines).encode()


def stop_and_go(stopped, writer):
    """Stops a process and lets it go on, until the program has ended."""
    end = time.monotonic() + MOST_SECONDS
    while writer.poll() is None:
        if time.monotonic() > end:
            writer.kill()
            raise Failed(f"it hasn't ended after {MOST_SECONDS} seconds")
        for sign in (signal.SIGSTOP, signal.SIGCONT):
            with contextlib.suppress(ProcessLookupError):
                os.kill(stopped.pid, sign)
            time.sleep(STOPPED)


def run_through(program, words, folder, stops):
    """What a run leaves on standard output, through a pipe, and on standard error, where this is stopped meanwhile."""
    with tempfile.TemporaryFile() as out, tempfile.TemporaryFile() as errors:
        writer = subprocess.Popen([program, *words], cwd=folder, stdout=subprocess.PIPE, stderr=errors)
        reader = subprocess.Popen(["cat"], stdin=writer.stdout, stdout=out)
        writer.stdout.close()
        try:
            if stops != "nothing":
                stop_and_go(reader if stops == "the reader of the output" else writer, writer)
            if writer.wait(MOST_SECONDS) or reader.wait(MOST_SECONDS):
                raise Failed(f"status {writer.returncode}")
        except subprocess.TimeoutExpired:
            raise Failed(f"it hasn't ended after {MOST_SECONDS} seconds") from None
        finally:
            for process in (writer, reader):
                if process.poll() is None:
                    process.kill()
        out.seek(0)
        errors.seek(0)
        return out.read(), errors.read()


def told_of(errors):
    """How many overruns were told, and how many units they cost; nothing else was said."""
    overruns, missed, lost = 0, 0, False
    for line in errors.splitlines(keepends=True):
        if OVERRUN.fullmatch(line):
            overruns, lost = overruns + 1, True
        elif (found := MISSED.fullmatch(line)) and lost:
            missed, lost = missed + int(found[1]), False
        else:
            raise Failed(f"a message that isn't due: {line!r}")
    if lost:
        raise Failed("behind the last overrun nothing is told of what it cost")
    return overruns, missed


def taken_of(out, feeds):
    """How many units were taken: the lines, each feed's in its order, none twice."""
    last = [-1] * feeds
    lines = out.splitlines()
    for line in lines:
        feed, number = map(int, line[28:].split(b":")[:2])
        if number <= last[feed]:
            raise Failed(f"line {number} of feed {feed} comes behind {last[feed]}")
        last[feed] = number
    return len(lines)


def check(program):
    runs = overruns = missed = 0
    with temporary_folder() as folder:
        names = [str(number) for number in range(max(FEEDS))]
        for number, name in enumerate(names):
            (folder / name).write_bytes(feed_of(number))
        for feeds in FEEDS:
            for seg in SEGMENTS:
                words = [*(word for name in names[:feeds] for word in ("--feed", name)), "--ring", str(seg)]
                for stops in STOPS * ROUNDS:
                    out, errors = run_through(program, [*words, "varnishlog", "-g", "raw"], folder, stops)
                    told, cost = told_of(errors)
                    taken = taken_of(out, feeds)
                    what = f"{feeds} feeds, --ring {seg}, {stops} stopped"
                    if taken + cost != feeds * LINES:
                        raise Failed(f"{what}: {taken} units taken and {cost} missed aren't {feeds * LINES}")
                    runs, overruns, missed = runs + 1, overruns + told, missed + cost
    if overruns == 0:
        raise Failed("no reader was overrun")
    return f"{runs} runs on threads, with {overruns} overruns, which cost {missed} units, each of them counted"
