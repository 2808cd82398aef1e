"""Asks tools/reference/vtools.py what comes of the command lines of cases/, and compares it with what they say.

So the script that tells what made-up command lines must print is tested by values from outside. Cases of large files,
of many made requests, and of other programs are left out.
"""

import os
import re

import vtools
from checks.cases import FIRST_PROGRAM, Case, all_cases, program_of
from checks.running import Failed, Run, same_run, same_tree
from patterns import NotClaimed

MOST_BYTES = 100_000  # of all files of a case
MANY = re.compile(rb"[0-9]{5,},[0-9]+")  # made requests


class Asked(Case):
    """A case that is asked of the script; how many command lines it has, and of how many nothing is claimed."""

    def __init__(self, folder):
        super().__init__(folder)
        self.runs = self.not_claimed = 0

    def is_large(self):
        """Whether it would take long."""
        size = sum(len(data or b"") for data in self.data.values())
        return "made" in self.kinds or size > MOST_BYTES or MANY.search(self.files.get("args", b""))

    def run_words(self, _, words, wanted, where):
        """Compares what the script says of the words with what the case does."""
        self.runs += 1
        try:
            came = vtools.came([os.fsdecode(word) for word in words], self.data, self.files.get("stdin", b""))
            same_run("the script", wanted, Run(*came[:3]))
            same_tree("the files that are left", self.data | self.below("files"), came.files)
        except NotClaimed:
            self.not_claimed += 1
        except Failed as failed:
            self.tell(failed, where)


def check(_):
    folders = [folder for folder in all_cases() if program_of(folder.parent) == FIRST_PROGRAM]
    cases = [case for case in map(Asked, folders) if not case.is_large()]
    for case in cases:
        case.run(None)
    if wrong := [line for case in cases for line in case.wrong]:
        raise Failed("\n".join(wrong))
    runs, not_claimed = sum(case.runs for case in cases), sum(case.not_claimed for case in cases)
    return f"{runs} command lines of {len(cases)} cases, of {not_claimed} of which nothing is claimed"
