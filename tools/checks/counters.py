"""Compares what the program prints of counters, and of requests that are made up, with what counters.py says.

Counters are of the real log's lines and of requests that are made up, in rings of several sizes and with payloads of
several lengths; and of the two feeds of checks/schedules.py in turns of the seeds 0 to 60, alone and with such
requests. A reader takes such requests from a small ring in turns of some seeds.
"""

import counters
import schedules
from checks.examples import report
from checks.running import TOP, Failed, compare, temporary_folder, write_tree
from checks.schedules import NAMES, listings, order

REAL = TOP / "examples/real-1.raw"
RING, RECLEN = 65536, 255
SMALL_RING = 64
REAL_RINGS = [64, 100, 1000, RING]
REAL_RECLENS = [16, 60, RECLEN, 4000]
QUICK_RINGS, QUICK_RECLENS = [64, RING], [16, RECLEN]
# how many requests, the seed, words of a segment, bytes of a payload
MADE = [
    *[(count, 7, RING, RECLEN) for count in (1, 2, 3, 10, 1000)],
    *[(100, seed, RING, RECLEN) for seed in (0, 1, 2, 3, 4242, 65534, 65535, 65536)],
    *[(100, 7, ring, RECLEN) for ring in (64, 65, 66, 71, 75, 87, 88, 89, 100, 128, 1024, 1048576)],
    *[(100, 7, ring, reclen) for ring in (64, 65, 80) for reclen in (16, 17, 40, 41, 42, 4000)],
]
# Of the turns of two feeds; quickly a few, with 17, one of four in which the ring wraps once more.
SEEDS, QUICK_SEEDS = [None, *range(61)], [None, *range(6), 17]
LAST_READ_SEED = 12  # of the turns of a reader and requests that are made up
READ = 45, 7  # how many requests, and their seed
GLOBS = ["*", "**", "", "MAIN.*", "*miss*", "*_*_*", "*s*s*s*", "M*.*e*q", "MAIN.?", "main.*", "cache_hit", "*" * 10000]


def compared_counters(program, folder, words, values):
    """Compares the lines and the JSON text of all counters, and answers how many command lines these are."""
    compare(program, [*words, "varnishstat", "-1"], counters.text_lines(values, []).encode(), folder=folder)
    compare(program, [*words, "varnishstat", "-j"], counters.json_text(values, []).encode(), folder=folder)
    return 2


def of_real_traffic(program, folder, rings, reclens):
    """Counters of the real log's lines, feed after feed and in turns of a seed."""
    data, runs = REAL.read_bytes(), 0
    for ring in rings:
        for reclen in reclens:
            listing = schedules.read_listing(data, reclen, ring)
            for seed in (None, 7):
                values = counters.replayed_values([listing], ring, seed)
                words = ["--feed", str(REAL), "--ring", str(ring), "--reclen", str(reclen), *order(seed)]
                runs += compared_counters(program, folder, words, values)
    return runs


def made(count, seed, ring, reclen):
    """Units and cuts of requests that are made up."""
    return schedules.read_listing(counters.made_listing(count, seed), reclen, ring)


def of_made_requests(program, folder):
    runs = 0
    for count, seed, ring, reclen in MADE:
        values = counters.replayed_values([made(count, seed, ring, reclen)], ring, None)
        words = ["--gen", f"{count},{seed}", "--ring", str(ring), "--reclen", str(reclen), "--feed-first"]
        runs += compared_counters(program, folder, words, values)
    return runs


def of_two_feeds(program, folder, seeds):
    """Counters of two feeds in turns of many seeds, and of these with requests that are made up."""
    write_tree(folder, listings())
    feeds = [schedules.read_listing(listing, RECLEN, SMALL_RING) for listing in listings().values()]
    requests = made(*READ, SMALL_RING, RECLEN)
    words = ["--ring", str(SMALL_RING), *(word for name in NAMES for word in ("--feed", name))]
    with_requests = ["--gen", f"{READ[0]},{READ[1]}", *words]
    runs, wraps = 0, set()
    for seed in seeds:
        for before, given in ((words, feeds), (with_requests, [*feeds, requests])):
            values = counters.replayed_values(given, SMALL_RING, seed)
            wraps.add((len(given), values["shm_cycles"]))
            runs += compared_counters(program, folder, [*before, *order(seed)], values)
    if len(wraps) < 4:
        raise Failed("as many units wrap in any order")
    return runs


def of_readers(program, folder):
    """Raw lines and the report of requests that are made up, which a reader takes in turns of some seeds."""
    units, _ = made(*READ, SMALL_RING, RECLEN)
    words = ["--gen", f"{READ[0]},{READ[1]}", "--ring", str(SMALL_RING)]
    runs, overruns = 0, 0
    for seed in [None, *range(LAST_READ_SEED + 1)]:
        _, history = schedules.replayed([units], SMALL_RING, seed)
        taken = [unit for item in history if isinstance(item, schedules.Run) for unit in item.units]
        records = [b"%-14s %s" % (tag.encode(), payload) for unit in taken for tag, payload in unit.records]
        errors = schedules.messages(history).encode()
        for tool, text in (
            (["varnishlog", "-g", "raw"], schedules.raw_lines(history)),
            (["varnishtop", "-1", "-g", "raw"], report(records)),
        ):
            compare(program, [*words, *order(seed), *tool], text, errors, folder=folder)
            runs += 1
        overruns += sum(isinstance(item, schedules.Overrun) for item in history)
    if overruns == 0:
        raise Failed("no reader was overrun")
    return runs


def of_globs(program, folder):
    """Counters and names that globs select, each glob alone and beside the one before."""
    values = counters.replayed_values([made(*READ, RING, RECLEN)], RING, None)
    words = ["--gen", f"{READ[0]},{READ[1]}", "--feed-first", "varnishstat"]
    choices = [[glob] for glob in GLOBS] + [list(pair) for pair in zip(GLOBS, GLOBS[1:])]
    for globs in [*choices, *(["MAIN." + name] for name in counters.COUNTERS)]:
        options = [word for glob in globs for word in ("-f", glob)]
        compare(program, [*words, "-1", *options], counters.text_lines(values, globs).encode(), folder=folder)
        compare(program, ["varnishstat", "-l", *options], counters.name_lines(globs).encode(), folder=folder)
    return 2 * (len(choices) + len(counters.COUNTERS))


def check(program, quick):
    """Checks all counters, and quickly those of the real log in fewer rings and lengths, and of feeds in fewer turns."""
    all_of, few_of = (REAL_RINGS, REAL_RECLENS, SEEDS), (QUICK_RINGS, QUICK_RECLENS, QUICK_SEEDS)
    rings, reclens, seeds = few_of if quick else all_of
    with temporary_folder() as folder:
        runs = sum(of(program, folder) for of in (of_globs, of_readers, of_made_requests))
        runs += of_two_feeds(program, folder, seeds) + of_real_traffic(program, folder, rings, reclens)
        return f"{runs} command lines"
