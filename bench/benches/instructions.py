"""Counts what each command of beside_varnish takes under valgrind's callgrind: instructions a record, over the first
records of its log, by what they serve, and the functions that have most of them. The counts are the same whatever else
the machine does.
"""

import os
import re
import shlex
import shutil
import subprocess
import sys
import tempfile

import vslog
from benches.beside_varnish import COMMANDS, FORMS, OUT, logs_in

NEEDED = ["valgrind", "callgrind_annotate"]
RECORDS = 500_000
SHOWN = 4  # functions of a command
FUNCTION = re.compile(r"^ *([\d,]+) \( *[\d.]+%\) +(\S+)")
# What a function serves: the first whose pattern its name has. `Printer::take` has the pending transactions inlined.
KINDS = {
    "memory": r"malloc|free|realloc|unlink_chunk|rattle_alloc|consolidate",
    "copies": r"memcpy|memmove|memset",
    "reading": r"vsl_record::reading|vsl_file::(reader|filling|steps)",
    "asking": r"query_eval|txn_groups::(marking|askers|asking|answers)",
    "grouping": r"Printer::take|txn_|records::Records|vsl_decimal|hash",
    "output": r"vsl_select|vsl_file|ncsa_format|vsl_top|ToolConsumer|vsl_tags|sort|cmp|scan",
    "rest": "",
}


def copy_first(source, target, least):
    """Copies the first units of a log of ours, until they have so many records: how many they have."""
    count = 0
    with open(source, "rb") as log, open(target, "wb") as part:
        part.write(vslog.HEADER)
        for vxid, mark, records in vslog.read_units(log.read()):
            part.write(vslog.unit(vxid, mark, records))
            count += len(records)
            if count >= least:
                break
    return count


def plain_name(text):
    """The end of a function's name, as callgrind_annotate tells it behind its file, without what tells its types."""
    name = re.sub(r"::<#\w+>|'\d+$", "", re.sub(r"^.*?[?cS]:", "", text))
    return "::".join(name.split("::")[-2:])


def count(words, counts):
    """Runs a command: the instructions that it took, and those of functions with their names, the most first."""
    counted = ["valgrind", "--tool=callgrind", f"--callgrind-out-file={counts}", *words]
    done = subprocess.run(counted, stdin=subprocess.DEVNULL, stdout=subprocess.DEVNULL, stderr=subprocess.PIPE, text=True)
    if done.returncode != 0:
        sys.exit(f"{shlex.join(words)}: status {done.returncode}\n{done.stderr}")
    told = subprocess.run(["callgrind_annotate", counts], stdout=subprocess.PIPE, text=True, check=True).stdout
    found = [(int(row[1].replace(",", "")), row[2]) for row in map(FUNCTION.match, told.splitlines()) if row]
    (total, _), *functions = found
    return total, functions


def by_kind(total, functions):
    """The instructions of each kind of function. What callgrind_annotate doesn't name counts as rest."""
    taken = dict.fromkeys(KINDS, 0)
    for one, name in functions:
        taken[next(kind for kind, pattern in KINDS.items() if re.search(pattern, name))] += one
    taken["rest"] += total - sum(taken.values())
    return taken


def bench(program, given):
    missing = [tool for tool in NEEDED if shutil.which(tool) is None]
    if missing:
        sys.exit(f"not on the path: {' '.join(missing)}; apt-get install valgrind")
    with tempfile.TemporaryDirectory() as folder:
        ours, _ = logs_in(given.logs or folder)
        part, counts, out = (os.path.join(folder, name) for name in ("part", "counts", "out"))
        records = copy_first(ours, part, RECORDS)
        print(f"instructions a record, over {records} records\n\n| Command | all | {' | '.join(KINDS)} | most in |")
        print(f"|---|{'---:|' * (1 + len(KINDS))}---|")
        for _, words in [*COMMANDS, *FORMS]:
            named = [program, *(out if word == OUT else word for word in words), "-r", part]
            total, functions = count(named, counts)
            cells = [f"{taken / records:.0f}" for taken in (total, *by_kind(total, functions).values())]
            most = ", ".join(f"`{plain_name(name)}` {taken / records:.0f}" for taken, name in functions[:SHOWN])
            print(f"| `{shlex.join(words)}` | {' | '.join(cells)} | {most} |", flush=True)
