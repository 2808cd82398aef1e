"""Makes cases of a kind from a seed, tries each, makes smaller what differs, and counts.

A case has `difference(program, folder)`, which says how what comes differs from what must come, or None, raises
NotClaimed where nothing is said of it, and leaves the folder empty; `parts()`, each with a function that makes the case
with what is left of it; and `shown()`, the text by which a person runs it.
"""

import concurrent.futures
import os
import random
import time
import typing

from checks.running import temporary_folder
from patterns import NotClaimed

AT_ONCE = 16  # numbers that a process is given
MOST_SECONDS = 60  # in which a case is made smaller


class Kind(typing.NamedTuple):
    """What is tried, the cases of a draw and a number, and how many numbers the gate tries.

    Of so many numbers in a row the draw is one. Of a part of all cases at least something is claimed.
    """

    what: str
    made: typing.Callable
    of_gate: int = 200
    of_draw: int = 1
    claimed: float = 0.8


class Tried(typing.NamedTuple):
    """How many cases there were, of how many nothing is claimed, and each that differs as a person reads it."""

    cases: int
    not_claimed: int
    differing: list


def difference(program, folder, case):
    """How what comes of a case differs; None where it doesn't, or where nothing is claimed of it."""
    try:
        return case.difference(program, folder)
    except NotClaimed:
        return None


def needed(part, is_enough):
    """What is needed of a part: some of it, half of it first, is left out as long as the rest is enough."""
    size = len(part)
    while size:
        at = 0
        while at < len(part):
            left = part[:at] + part[at + size :]
            if is_enough(left):
                part = left
            else:
                at += size
        size //= 2
    return part


def smallest(program, folder, case):
    """The case without what makes no difference to that there is one, as far as the time goes."""
    until, before = time.monotonic() + MOST_SECONDS, None
    while case != before:
        before, at = case, 0
        while at < len(parts := list(case.parts())):
            part, put = parts[at]
            case = put(needed(part, lambda left: time.monotonic() < until and difference(program, folder, put(left))))
            at += 1
    return case


def try_cases(program, folder, cases):
    """Tries cases, up to the first that differs."""
    count = not_claimed = 0
    for case in cases:
        count += 1
        try:
            differs = case.difference(program, folder)
        except NotClaimed:
            not_claimed += 1
            continue
        if differs:
            left = smallest(program, folder, case)
            return Tried(count, not_claimed, [f"{difference(program, folder, left)}\nof\n{left.shown()}"])
    return Tried(count, not_claimed, [])


def try_number(kind, name, program, seed, number):
    """Tries the cases of a number of a kind."""
    drawn, place = divmod(number, kind.of_draw)
    with temporary_folder() as folder:
        tried = try_cases(program, folder, kind.made(random.Random(f"{name} {seed} {drawn}"), place))
    return tried._replace(differing=[f"{name} {number} of seed {seed}: {told}" for told in tried.differing])


def pool():
    """Processes, as many as this may use processors."""
    return concurrent.futures.ProcessPoolExecutor(len(os.sched_getaffinity(0)))


def try_kind(processes, kind, name, program, seed, count):
    """Tries so many numbers of a kind."""
    same = [[value] * count for value in (kind, name, program, seed)]
    tried = list(processes.map(try_number, *same, range(count), chunksize=AT_ONCE))
    return Tried(
        sum(one.cases for one in tried),
        sum(one.not_claimed for one in tried),
        [told for one in tried for told in one.differing],
    )
