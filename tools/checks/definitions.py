"""Checks that each definition has a sentence, a source and a public call, but those that a list names, and its width.

What tools/definitions.py finds is compared with tools/definitions_left.txt: a line of the one alone fails. A line of a
clause or a definition that is wider than MOST_COLUMNS fails where there are more of them than WIDE has, which only falls.
"""

import re

import definitions
from checks.running import TOP, Failed

LEFT = "tools/definitions_left.txt"
MOST_COLUMNS = 150
WIDE = {"src": 33, "specs": 53}  # how many lines are wider, of each folder of a crate
IMPORT = re.compile(r" *(//|--|(pub )?(ghost )?use )")  # or a comment
CLAUSE = re.compile(r" *(ensures|requires|ghost) |.*[^\x00-\x7f]")


def wide_lines(folder):
    """The place of each line of a clause or a definition that is too wide, in this folder of all crates."""
    for path in sorted(TOP.glob(f"crates/*/{folder}/**/*")):
        if path.suffix in (".rt", ".antt"):
            for number, line in enumerate(path.read_text().splitlines(), 1):
                said = path.suffix == ".antt" or CLAUSE.match(line)
                if len(line) > MOST_COLUMNS and said and not IMPORT.match(line):
                    yield f"{path.relative_to(TOP)}:{number}"


def widths():
    """How many lines are too wide, of both folders."""
    found = {folder: list(wide_lines(folder)) for folder in WIDE}
    for folder, places in found.items():
        if len(places) > WIDE[folder]:
            shown = "\n".join(places[:20])
            raise Failed(f"{len(places)} lines of {folder} are wider than {MOST_COLUMNS}, and not {WIDE[folder]}:\n{shown}")
    return sum(map(len, found.values()))


def check(_):
    index = definitions.Index()
    _, bare = definitions.document(index)
    if bare:
        raise Failed("\n".join(f"crates/{item.crate}/{item.file}: {item.name} has no comment" for item in bare))
    found, left = set(definitions.unused(index)), set((TOP / LEFT).read_text().splitlines())
    lines = [f"not in {LEFT}: {line}" for line in sorted(found - left)]
    lines += [f"in {LEFT} without need: {line}" for line in sorted(left - found)]
    if lines:
        raise Failed("\n".join(lines))
    count = sum(item.public for spec in index.specs for item in spec.items.values())
    return f"{count} of them, {len(left)} lines of {LEFT}, and {widths()} that are wide"
