"""Replays two feeds over a small ring in many stated orders, and compares what the program prints with schedules.py.

The feeds are made here: records of no transaction, units of a few words and of a whole segment, payloads and batches
that are cut. They go through the ring in turns of the seeds 0 to 200, and feeds first.
"""

import schedules
from checks.running import Failed, compare, temporary_folder, write_tree

SEG = 64
RECLEN = 255
LAST_SEED = 200
BATCHES = 61
NAMES = ["a", "b"]
WHOLE = 4 * (SEG - 4)  # bytes of a payload whose record makes a unit of a whole segment
SIZES = [0, 1, 5, 17, 60, 120, 200, WHOLE - 4, WHOLE - 1]  # bytes of other payloads


def made_batch(vxid, mark, draws):
    """The lines of a batch whose kind and sizes are drawn."""
    kind = draws.pick(8)
    size = SIZES[draws.pick(len(SIZES))]
    records = {
        0: [(vxid, "VCL_Log", WHOLE)],
        1: [(vxid, "VCL_Log", WHOLE + 56)],  # the payload is cut
        2: [(vxid, "Begin", 0), (vxid, "VCL_Log", size), (vxid, "End", 0), (vxid, "VCL_Log", 3)],
        3: [(vxid, "VCL_Log", 100)] * 3,  # the batch is cut
        4: [(0, "CLI", size), (0, "CLI", 2)],
        5: [(vxid, "VCL_Log", 2)] * (1 + size // 8),
    }.get(kind, [(vxid, "VCL_Log", size)])
    ends = ["", "# a comment\n", "\n", "  \n"]
    return "".join(f"{vxid:10} {tag:14} {mark} {'x' * size}\n" for vxid, tag, size in records) + ends[draws.pick(4)]


def made_listing(feed):
    """A listing whose VXIDs are those of no other feed."""
    draws = schedules.Draws(feed)
    marks = "cb-"
    vxids = range(1 + feed, 1 + feed + len(NAMES) * BATCHES, len(NAMES))
    return "".join(made_batch(vxid, marks[draws.pick(3)], draws) for vxid in vxids).encode()


def listings():
    """The listing of each feed, by its name."""
    return {name: made_listing(feed) for feed, name in enumerate(NAMES)}


def order(seed):
    """The words that state the order of a seed; without one, feeds first."""
    return ["--feed-first"] if seed is None else ["--turns", str(seed)]


def check(program):
    feeds = [schedules.read_listing(listing, RECLEN, SEG)[0] for listing in listings().values()]
    seeds, overruns, missed = [*range(LAST_SEED + 1), None], 0, 0
    words = [*(word for name in NAMES for word in ("--feed", name)), "--ring", str(SEG)]
    with temporary_folder() as folder:
        write_tree(folder, listings())
        for seed in seeds:
            ring, history = schedules.replayed(feeds, SEG, seed)
            if sum(schedules.taken_and_missed(history)) != len(ring.units):
                raise Failed(f"seed {seed}: what was taken and what was missed aren't all units")
            lines, told = schedules.raw_lines(history), schedules.messages(history).encode()
            compare(program, [*words, *order(seed), "varnishlog", "-g", "raw"], lines, told, folder=folder)
            overruns += sum(isinstance(item, schedules.Overrun) for item in history)
            missed += schedules.taken_and_missed(history)[1]
    if overruns == 0:
        raise Failed("no reader was overrun")
    return f"{len(seeds)} of them, with {overruns} overruns, which cost {missed} units"
