#!/usr/bin/env python3
"""Proves and builds the crates that some crates stand on, side by side where none waits for another.

Each is a call of `rt lib`, once all below it are built, and at most one a processor. Each may use all processors, and
where these don't suffice, those come first for which the longest chain of others waits. rt keeps others out of a
crate's folder and of those below it, so each call is in one of as many copies of the crates, in a temporary folder; rt
lends what was built in one to the others, and at last to this repository. A line tells when each begins, and one behind
it how many of them all are done; what a call printed is shown where it fails, and then the status is 1. What an earlier
call proved is kept. Usage: tools/build.py CRATE ..
"""
import os
import pathlib
import queue
import re
import shutil
import subprocess
import sys
import tempfile
import time
from concurrent.futures import FIRST_COMPLETED, ThreadPoolExecutor, wait

TOP = pathlib.Path(__file__).resolve().parent.parent
CRATES = TOP / "crates"
FROM_NOTHING = "from nothing half an hour to an hour on four processors"


def all_below(tops):
    """The crates below these, each with those that crates.txt has it use."""
    rows = re.findall(r"^(\w+)[^:\n#]*:([^\n#]*)", (TOP / "crates.txt").read_text(), re.M)
    uses = {name: words.split() for name, words in rows}
    found, left = {}, list(tops)
    while left:
        for name in uses[left.pop()]:
            if name in uses and name not in found:
                found[name] = [it for it in uses[name] if it in uses]
                left.append(name)
    return found


def lines_of(name):
    """How many lines of source and of proofs a crate has, which is about how long it takes."""
    files = [file for part in ("src", "proofs") for file in (CRATES / name / part).rglob("*.*t")]
    return sum(file.read_text().count("\n") for file in files)


def chain_from(name, below):
    """The lines of the longest chain of crates from this one on, of which each waits for the one before."""
    return lines_of(name) + max((chain_from(it, below) for it in below if name in below[it]), default=0)


def copied_to(room):
    """Copies what a call reads, without what earlier calls made, and answers the folder."""
    shutil.copytree(CRATES, room / "crates", ignore=shutil.ignore_patterns("out"))
    for name in ("HANDLES", "crates.txt"):
        shutil.copy(TOP / name, room)
    return room


def lasted(seconds):
    """So many seconds, for a person."""
    return f"{seconds // 60:.0f} min {seconds % 60:.0f} s" if seconds >= 60 else f"{seconds:.0f} s"


def build(name, rooms, lanes, nice):
    """Proves and builds a crate, whose libraries are built: its name, the status, what was printed, and the seconds."""
    begun, room = time.monotonic(), rooms.get()
    call = subprocess.run(["nice", "-n", str(nice), "rt", "lib", "--jobs", str(lanes)], cwd=room / "crates" / name,
                          stdout=subprocess.PIPE, stderr=subprocess.STDOUT, text=True, errors="replace")
    rooms.put(room)
    return name, call.returncode, call.stdout, time.monotonic() - begun


def build_all(below, rooms):
    """Builds the crates, and answers whether none failed."""
    lanes, chain = rooms.qsize(), {it: chain_from(it, below) for it in below}
    nice = {it: 19 - 19 * chain[it] // max(chain.values()) for it in below}
    left, built, running = sorted(below, key=nice.get), set(), set()
    with ThreadPoolExecutor(lanes) as pool:
        while left or running:
            for it in [it for it in left if built.issuperset(below[it])][:lanes - len(running)]:
                left.remove(it)
                print(f"{it} ..", flush=True)
                running.add(pool.submit(build, it, rooms, lanes, nice[it]))
            done, running = wait(running, return_when=FIRST_COMPLETED)
            for name, status, said, seconds in (it.result() for it in done):
                if status:
                    print(f"{name}: not built\n{said}", flush=True)
                    return False
                built.add(name)
                print(f"{len(built)} of {len(below)} crates are done: {name} took {lasted(seconds)}", flush=True)
    return True


def build_below(tops):
    """Builds the crates below these, and has them in this repository: the status."""
    begun, below, rooms = time.monotonic(), all_below(tops), queue.SimpleQueue()
    print(f"{len(below)} crates, and then {' and '.join(tops)}: {FROM_NOTHING}; what was proved is kept", flush=True)
    with tempfile.TemporaryDirectory(prefix="build-") as folder:
        for number in range(len(os.sched_getaffinity(0))):
            rooms.put(copied_to(pathlib.Path(folder) / str(number)))
        if not build_all(below, rooms):
            return 1
        highest = [it for it in below if not any(it in others for others in below.values())]
        status = max((subprocess.run(["rt", "lib"], cwd=CRATES / it).returncode for it in highest), default=0)
    print(f"{len(below)} crates: {lasted(time.monotonic() - begun)}", flush=True)
    return status


if __name__ == "__main__":
    if len(sys.argv) < 2 or not all((CRATES / name).is_dir() for name in sys.argv[1:]):
        sys.exit("usage: tools/build.py CRATE ..")
    sys.exit(build_below(sys.argv[1:]))
