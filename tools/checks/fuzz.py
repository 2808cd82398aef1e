"""Tries command lines, logs, feeds, queries and formats that are made up from a seed, beside tools/reference.

tools/fuzz tries the same kinds with other seeds, and more of each.
"""

from checks.running import Failed
from fuzzing.engine import pool, try_kind
from fuzzing.kinds import KINDS

SEED = 3


def check(program):
    cases = not_claimed = 0
    with pool() as processes:
        for name, kind in KINDS.items():
            tried = try_kind(processes, kind, name, program, SEED, kind.of_gate)
            if tried.differing:
                raise Failed(tried.differing[0])
            if tried.cases - tried.not_claimed < kind.claimed * tried.cases:
                raise Failed(f"{name}: nothing is claimed of {tried.not_claimed} of {tried.cases} cases")
            cases, not_claimed = cases + tried.cases, not_claimed + tried.not_claimed
    return f"{cases} cases of {len(KINDS)} kinds; of {not_claimed} of them nothing is claimed"
