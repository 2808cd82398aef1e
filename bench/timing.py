"""Times commands: seconds, those for the user, and the peak of memory, which the system tells of what has ended."""

import ctypes
import os
import shlex
import subprocess
import sys
import time
from typing import NamedTuple

RUNS = 5
# What starts a command once its input ends. The peak of a process begins with that of its parent, so a shell, which is
# small, is the parent, and leaves it to this program. The command's own input is a file, the shell's name here.
STARTER = 'exec 3<&0; { read -r _ <&3; exec "$@" <"$0" 3<&-; } &'
ADOPT = 36  # of prctl: PR_SET_CHILD_SUBREAPER


class Run(NamedTuple):
    """The seconds of a run, those of them for the user, and the peak of memory in MiB."""

    seconds: float
    user: float
    peak: float


def run(words, source="/dev/null", errors=None):
    """Runs a command to its end over standard input from a file, with standard error to a file if one is given."""
    ctypes.CDLL(None).prctl(ADOPT, 1, 0, 0, 0)
    words = [str(word) for word in words]
    starter = ["sh", "-c", STARTER, source, *words]
    shell = subprocess.Popen(starter, stdin=subprocess.PIPE, stdout=subprocess.DEVNULL, stderr=errors)
    shell.wait()
    begin = time.perf_counter()
    shell.stdin.close()
    _, status, used = os.wait4(-1, 0)
    seconds = time.perf_counter() - begin
    if status != 0:
        sys.exit(f"{shlex.join(words)}: status {os.waitstatus_to_exitcode(status)}")
    return Run(seconds, used.ru_utime, used.ru_maxrss / 1024)


def best(runs):
    """The run of least time, with the largest peak."""
    return min(runs)._replace(peak=max(each.peak for each in runs))


def in_turn(commands, runs=RUNS):
    """The best run of each command. They run in turn, so that what else the machine does falls on all of them."""
    taken = [[run(words) for words in commands] for _ in range(runs)]
    return [best(of) for of in zip(*taken)]
