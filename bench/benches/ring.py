"""Times the ring that threads share: a put beside a plain copy of the same words, writers together, readers beside a
writer, and a queue of the kit beside both.

A plain copy stores word after word into a table of the same atomic words under a rule that asks nothing; what the copy
of the words into plain memory takes is shown too. Beside a writer are also readers of another ring, to which nobody
puts: what these cost it is the processors' doing and not the ring's. The commands run in turn, in one run, and the
least time of seven counts, where there are readers the least of those in which they took most of what was put; what
they took is shown. A writer's time is up to its last unit.
"""

import os
import subprocess

from ring_program.build import built

RUNS = 7
SIZES = (16, 64, 512)
RECORDS = {16: 3, 64: 9, 512: 73}  # of a unit that has many: its header has a word, and each record 5 or 7
SMALL = 4096  # words of a segment; a ring has eight, of 8 bytes a word in memory
LARGE = 65536
WORDS = 1 << 24  # about how many words each command puts
MOST = 0.8  # of what was put, to be taken by each reader
SLEEP = 100  # microseconds that each of many readers sleeps where nothing came


def put(writers, readers, sleep, seg, size, records, units):
    return ["put", writers, readers, sleep, seg, size, records, units]


def reading(readers, sleep):
    """The label of a writer beside readers that sleep where nothing came, or let others run."""
    one, many = ("sleeps", "sleep") if sleep else ("yields", "yield")
    return f"1 reader that {one}, 64 words" if readers == 1 else f"{readers} readers that {many}, 64 words"


def apart(readers, sleep):
    """The label of a writer beside readers of another ring."""
    return reading(readers, sleep).replace(", 64 words", ", of another ring")


def together(writers):
    """The label of so many writers."""
    return "1 writer, 64 words" if writers == 1 else f"{writers} writers, 64 words"


def commands_of():
    """The commands by their labels, each with its units and the words of a unit."""
    made = {}
    for size in SIZES:
        units = WORDS // size
        for seg in (SMALL, LARGE):
            made[f"put, {size} words, segments of {seg}"] = put(1, 0, 0, seg, size, 1, units), units, size
            made[f"table, {size} words, segments of {seg}"] = ["table", seg, size, units], units, size
        label = f"put, {size} words in {RECORDS[size]} records"
        made[label] = put(1, 0, 0, SMALL, size, RECORDS[size], units), units, size
        made[f"memory, {size} words"] = ["memory", SMALL, size, units], units, size
    size = 64
    units = WORDS // size
    for writers in (1, 2, 4, 8):
        made[together(writers)] = put(writers, 0, 0, LARGE, size, 1, units // writers), units, size
    for readers, sleep in ((1, 0), (1, SLEEP), (8, 0), (8, SLEEP)):
        beside = put(1, readers, sleep, LARGE, size, 1, units)
        made[reading(readers, sleep)] = beside, units, size
        made[apart(readers, sleep)] = ["apart", *beside[1:]], units, size
    for size in SIZES:
        units = WORDS // size
        made[f"ring of 1 and 1, {size} words"] = put(1, 1, 0, LARGE, size, 1, units), units, size
        made[f"queue of 1 and 1, {size} words"] = ["queue", 8 * LARGE // size, size, units], units, size
    return made


def run(program, words):
    """Runs the program, and answers nanoseconds, units put, units taken and overruns."""
    done = subprocess.run([program, *map(str, words)], stdout=subprocess.PIPE, text=True, check=True)
    return tuple(map(int, done.stdout.split()))


def best_of(words, runs):
    """The run that counts: the quickest of those in which readers took most of what was put, or of most taken."""
    readers = words[2] if words[0] == "put" else 0
    full = [run for run in runs if run[2] >= MOST * readers * run[1]]
    return min(full) if full else max(runs, key=lambda run: run[2])


def print_times(program):
    processors = len(os.sched_getaffinity(0))
    commands = commands_of()
    # in turn, so that what else the machine does falls on all
    taken = [[run(program, words) for words, _, _ in commands.values()] for _ in range(RUNS)]
    least = {label: best_of(command[0], runs) for (label, command), runs in zip(commands.items(), zip(*taken))}
    unit = {label: least[label][0] / units for label, (_, units, _) in commands.items()}
    print(f"least of {RUNS} runs in turn, {processors} processors")
    print(f"{'what':44} {'ns a unit':>10} {'ns a word':>10} {'ratio':>7}  wanted")

    def line(label, ratio=None, wanted=""):
        shown = "" if ratio is None else f"{ratio:.2f}"
        print(f"{label:44} {unit[label]:10.1f} {unit[label] / commands[label][2]:10.3f} {shown:>7}  {wanted}".rstrip())

    for size in SIZES:
        for seg in (SMALL, LARGE):
            table = f"table, {size} words, segments of {seg}"
            label = f"put, {size} words, segments of {seg}"
            line(label, unit[label] / unit[table], "at most 2 of the table's")
            line(table)
        label = f"put, {size} words in {RECORDS[size]} records"
        line(label, unit[label] / unit[f"table, {size} words, segments of {SMALL}"], "at most 2 of the table's")
        line(f"memory, {size} words")
    alone = unit[together(1)]
    line(together(1))
    for writers in (2, 4, 8):
        line(together(writers), alone / unit[together(writers)], "units a second, at least 0.5 of one writer's")
    for readers in (1, 8):
        for sleep in (0, SLEEP):
            label = reading(readers, sleep)
            share = least[label][2] / (least[label][1] * readers)
            wanted = "units a second, at least 0.8 of one writer's"
            if readers == 1:
                wanted = "to take at least 0.8 of what is put"
            line(label, alone / unit[label], f"{wanted}; each took {share:.2f}")
            line(apart(readers, sleep), alone / unit[apart(readers, sleep)])
    print(f"{'units a second, 1 writer and 1 reader':44} {'ring':>11} {'queue':>11} {'ratio':>7}  of the ring's, taken")
    for size in SIZES:
        ring, queue = f"ring of 1 and 1, {size} words", f"queue of 1 and 1, {size} words"
        _, all_put, all_taken, overruns = least[ring]
        speeds = f"{1e9 / unit[ring]:11.0f} {1e9 / unit[queue]:11.0f} {unit[queue] / unit[ring]:7.2f}"
        print(f"{f'{size} words':44} {speeds}  {all_taken / all_put:.2f}, {overruns} overruns")


def bench(given_program, _):
    with built(given_program) as program:
        print_times(program)
