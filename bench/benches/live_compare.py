"""Compares what went into vslog with what came out, for live.py: records, lines of both's tools, and requests."""

import collections
import concurrent.futures
import hashlib
import itertools
import mmap
import re
import subprocess
from typing import NamedTuple

import varnish_log
import vslog
from servers import unknown_tags

AT_ONCE = 1 << 20  # bytes of lines that are compared at once
SHOWN = 3  # lines that differ


class Came(NamedTuple):
    """What came of a pipe: what went into vslog, what came out, and the tool behind it with its output."""

    name: str
    taken: str
    written: str
    tool: list
    printed: str  # a digest


class Differs(Exception):
    """Two things are not the same; the message tells what."""


class Lines:
    """What a command prints, compared with what is wanted as it comes."""

    def __init__(self, what, words):
        self.what, self.wanted, self.size, self.digest = what, [], 0, hashlib.sha256()
        self.child = subprocess.Popen(words, stdout=subprocess.PIPE)

    def want(self, text):
        self.wanted.append(text)
        self.size += len(text)
        if self.size > AT_ONCE:
            self.compare()

    def compare(self, more=0):
        wanted = b"".join(self.wanted)
        got = self.child.stdout.read(len(wanted) + more)
        if wanted != got:
            ours, theirs = wanted.split(b"\n"), got.split(b"\n")
            at = next(at for at, pair in enumerate(itertools.zip_longest(ours, theirs)) if pair[0] != pair[1])
            shown = [b"".join(lines[at : at + 1]) for lines in (theirs, ours)]
            raise Differs(f"{self.what} prints {shown[0]!r}, not {shown[1]!r}")
        self.digest.update(got)
        self.wanted, self.size = [], 0

    def end(self):
        """Compares what is left, behind which nothing may come: a digest of all."""
        self.compare(1)
        if self.child.wait():
            raise Differs(f"{self.what}: status {self.child.returncode}")
        return self.digest.hexdigest()


def bytes_of(path):
    """The bytes of a file, which are read when they are looked at."""
    with open(path, "rb") as file:
        return memoryview(mmap.mmap(file.fileno(), 0, access=mmap.ACCESS_READ))


def records_of(path):
    """The records of a log file of ours."""
    for vxid, mark, records in vslog.read_units(bytes_of(path)):
        for tag, payload in records:
            yield vxid, mark, tag, bytes(payload)


def taken_of(came, counts, theirs):
    """What is to be taken of what went into vslog. Of a binary log varnishlog's lines are compared on the way."""
    if theirs is None:
        with open(came.taken, "rb") as lines:
            yield from varnish_log.read_text(lines, counts)
        return
    for entry in varnish_log.read_entries(bytes_of(came.taken), counts):
        record = varnish_log.taken_entry(entry, counts)
        if record:
            theirs.want(varnish_log.varnish_line(*entry[1:]))
            yield record


def compare_records(program, came):
    """Compares all records, and their lines as vtools and varnishlog print them: what is told, ids, and a digest."""
    raw, counts, ids, many = ["varnishlog", "-g", "raw", "-r"], collections.Counter(), set(), 0
    ours, theirs = Lines("vtools", [program, *raw, came.written]), None
    if came.name != "text":
        theirs = Lines("varnishlog", [*raw, came.taken, "-x", unknown_tags()])
    for record, got in itertools.zip_longest(taken_of(came, counts, theirs), records_of(came.written)):
        if record != got:
            raise Differs(f"the record {many} is {got}, not {record}")
        many += 1
        ours.want(vslog.raw_line(*record))
        if record[2] == "ReqHeader" and record[3].startswith(b"X-Id: "):
            ids.add(int(record[3][6:]))
    if theirs:
        theirs.end()
    counted = ", ".join(f"{what} {count}" for what, count in sorted(counts.items()) if count)
    return f"{many} records went in and came out; counted: {counted or 'nothing'}", ids, ours.end()


def compare_access_lines(program, came):
    """Compares access lines of both logs, where `-` stands for no bytes: what is told, and a digest of ours."""
    words = [program, *came.tool, "-r", came.written], [*came.tool, "-r", came.taken]
    same, others, digest = 0, 0, hashlib.sha256()
    with (
        subprocess.Popen(words[0], stdout=subprocess.PIPE) as ours,
        subprocess.Popen(words[1], stdout=subprocess.PIPE) as theirs,
    ):
        told = []
        for line, other in itertools.zip_longest(ours.stdout, theirs.stdout, fillvalue=b""):
            digest.update(line)
            is_same = line == re.sub(rb'(" [0-9-]+) 0 "', rb'\1 - "', other)
            same, others = same + is_same, others + (not is_same)
            told += [f"ours {line!r}\nVarnish's {other!r}"] if not is_same and others <= SHOWN else []
    return "\n".join([f"{same} access lines are Varnish's, {others} differ", *told]), digest.hexdigest()


def digest_of(words):
    """A digest of what a command prints."""
    with subprocess.Popen(words, stdout=subprocess.PIPE) as child:
        return hashlib.file_digest(child.stdout, "sha256").hexdigest()


def compared(program, came):
    """What is told of a pipe, the ids of requests in its log, and whether all is as it should be."""
    try:
        told, ids, printed = compare_records(program, came)
        if came.tool[0] == "varnishncsa":
            lines, printed = compare_access_lines(program, came)
            told += "\n" + lines
        elif "raw" not in came.tool:
            printed = digest_of([program, *came.tool, "-r", came.written])
        if printed != came.printed:
            raise Differs("what was printed live isn't what is printed of the file")
    except (Differs, vslog.NotRead) as fault:
        return str(fault), set(), False
    return told, ids, True


def compare_all(program, all_came, answered):
    """Compares what came of each pipe, and looks for each request that was answered: whether all is as it should be."""
    with concurrent.futures.ProcessPoolExecutor() as pool:
        results = [pool.submit(compared, program, came) for came in all_came]
        rights = []
        for came, (told, ids, is_right) in zip(all_came, (result.result() for result in results)):
            lost = len(answered - ids)
            if is_right:
                told += f"\nof {len(answered)} requests that were answered {lost} are missing"
            print("\n".join(f"{came.name}: {line}" for line in told.splitlines()), flush=True)
            rights.append(is_right and lost == 0)
    return all(rights)
