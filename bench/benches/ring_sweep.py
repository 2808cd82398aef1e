"""Checks on threads what readers take of the ring: 1 to 16 writers, 1 to 8 readers, segments of 64 to 4,096 words, and
in all about ten million units; and far fewer of them under valgrind, if there is one, by both of its schedulers.

Each unit tells its writer and number and has the sum of its words. The program checks that no unit is torn, that each
writer's units come in their order, none twice, and none missing between two overruns, that no overrun came at a
distance below six, that all readers agree which unit follows which, that they end with the writers' last units, that the
units of a run have numbers one after the other, and that what a reader took and what it missed are all units.
Status 1 and a message where one of these fails.
"""

import shutil
import subprocess
import sys
import time

from ring_program.build import built

WRITERS = range(1, 17)
READERS = range(1, 9)
SEGMENTS = [64 << power for power in range(7)]
MOST = 120  # words of a unit beside its stamp, its sum and what a unit has of its own
# under valgrind
FEW_WRITERS = (1, 2, 4, 16)
FEW_READERS = (1, 3, 8)
FEW_SEGMENTS = (64, 512)
SECONDS = 600


def check(runner, program, writers, readers, seg, units):
    """Runs one ring: the units put and taken, the overruns, the readers that were never overrun, the units missed."""
    most = min(seg - 6, MOST)
    pace = (writers + readers) % 2  # in every other ring the writers let others run after each unit
    words = [*runner, program, "check", *map(str, (writers, readers, pace, seg, units, most))]
    try:
        done = subprocess.run(words, stdout=subprocess.PIPE, stderr=subprocess.PIPE, text=True, timeout=SECONDS)
    except subprocess.TimeoutExpired:
        sys.exit(f"{' '.join(words)}: not done after {SECONDS} seconds")
    if done.returncode != 0:
        sys.exit(f"{' '.join(words)}: status {done.returncode}\n{done.stdout}{done.stderr}")
    _, put, taken, overruns, whole, missed = map(int, done.stdout.split())
    if put != writers * units:
        sys.exit(f"{' '.join(words)}: {put} units were put")
    if taken + missed != readers * put:
        sys.exit(f"{' '.join(words)}: {taken} units taken and {missed} missed by {readers} readers of {put}")
    return put, taken, overruns, whole, missed


def sweep(label, runner, program, all_writers, all_readers, segments, total):
    """Runs a ring for each combination, and prints what they came to for each size of a segment."""
    each = total // (len(all_writers) * len(all_readers) * len(segments))
    for seg in segments:
        begin = time.perf_counter()
        runs = [
            check(runner, program, writers, readers, seg, max(1, each // writers))
            for writers in all_writers
            for readers in all_readers
        ]
        put, taken, overruns, whole, missed = map(sum, zip(*runs))
        seconds = time.perf_counter() - begin
        readers = sum(all_readers) * len(all_writers)
        print(
            f"{label}segments of {seg:5}: {len(runs)} rings, {put} units put, {taken} taken, {missed} missed in "
            f"{overruns} overruns, {whole} of {readers} readers never overrun, {seconds:.1f} s",
            flush=True,
        )


def sweep_all(program, units, valgrind_units):
    sweep("", [], program, WRITERS, READERS, SEGMENTS, units)
    valgrind = shutil.which("valgrind")
    if valgrind is None:
        print("no valgrind")
        return
    for fair in ("yes", "no"):
        runner = [valgrind, "--quiet", f"--fair-sched={fair}", "--error-exitcode=9"]
        sweep(f"fair-sched={fair}, ", runner, program, FEW_WRITERS, FEW_READERS, FEW_SEGMENTS, valgrind_units)


def bench(given_program, given):
    with built(given_program) as program:
        sweep_all(program, given.units, given.valgrind_units)
