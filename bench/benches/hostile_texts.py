"""Times queries that a stranger may send: patterns that take other engines a time that doubles with each byte, over
payloads of 500 to 4,000 bytes, and queries of up to 65,536 bytes. Each next run has twice the text or twice the payload
of the one before, and so should take at most about twice as long.
"""

import os
import tempfile

import vslog
from timing import best, run

RECORDS = 2000
SIZES = (500, 1000, 2000, 4000)
# what a pattern asks of a payload of so many bytes, which it doesn't match
PATTERNS = [
    ("^(a*)*c", lambda size: b"a" * (size - 2) + b"bc"),
    ("^(a|a)*c", lambda size: b"a" * (size - 2) + b"bc"),
    ("^(a+a+)+c", lambda size: b"a" * (size - 2) + b"bc"),
    ("^((a{1,20}){1,20})*c", lambda size: b"a" * (size - 2) + b"bc"),
]
LENGTHS = (8192, 16384, 32768, 65000)
# queries of at most so many bytes
QUERIES = [
    ("tests joined by `or`", lambda most: " or ".join(["End[1] == 5"] * (most // 15))),
    ("a pattern of letters", lambda most: f"ReqURL ~ '{'a' * (most - 12)}'"),
    ("a pattern of choices", lambda most: f"ReqURL ~ '{'|'.join(['abc'] * (most // 4 - 4))}'"),
    ("64 parentheses around tests", lambda most: "(" * 64 + " and ".join(["End"] * (most // 8 - 20)) + ")" * 64),
]


def write_log(path, payload, count):
    """Writes a log of so many requests with this URL."""
    with open(path, "wb") as log:
        log.write(vslog.HEADER)
        for vxid in range(2, 2 + count):
            log.write(vslog.unit(vxid, "c", [("Begin", b"req 1 rxreq"), ("ReqURL", payload), ("End", b"")]))


def seconds(program, log, query):
    """The least seconds of three runs of a query in a file."""
    return best([run([program, "varnishlog", "-Q", query, "-r", log]) for _ in range(3)]).seconds


def print_rows(head, columns, rows):
    """Prints a table of seconds, with the ratio of the last two."""
    print(f"\n| {head} | {' | '.join(columns)} | last by the one before |\n|---|{'---:|' * (len(columns) + 1)}")
    for name, taken in rows:
        cells = " | ".join(f"{each:.3f}" for each in taken)
        print(f"| `{name}` | {cells} | {taken[-1] / taken[-2]:.2f} |", flush=True)


def bench(program, _):
    with tempfile.TemporaryDirectory() as folder:
        log, query = os.path.join(folder, "log"), os.path.join(folder, "query")

        def over_payloads(pattern, payload):
            with open(query, "w") as file:
                file.write(f"ReqURL ~ '{pattern}'\n")
            for size in SIZES:
                write_log(log, payload(size), RECORDS)
                yield seconds(program, log, query)

        def over_lengths(text):
            write_log(log, b"a" * 4000, 20)
            for most in LENGTHS:
                with open(query, "w") as file:
                    file.write(text(most) + "\n")
                yield seconds(program, log, query)

        print_rows("Pattern, s", [f"{size} bytes" for size in SIZES], [(name, list(over_payloads(name, payload))) for name, payload in PATTERNS])
        print_rows("Query, s", [f"{most} bytes" for most in LENGTHS], [(name, list(over_lengths(text))) for name, text in QUERIES])
