#!/usr/bin/env python3
"""Prints what `vtools WORDS` must print, with its message and its status, by docs/formats alone.

    tools/reference/vtools.py WORD ..

A run goes step by step as docs/formats/command-line.md says: words, queries, format, log or feeds, the file of `-w`,
and the log unit by unit. Nothing is claimed of help, of feeds on threads where another order may print other lines, and
of patterns that patterns.py doesn't read. What `-w` names is kept, and isn't written here. It is made to be read, not
to be fast.
"""

import contextlib
import itertools
import pathlib
import sys
import typing

sys.dont_write_bytecode = True
import access_lines
import counters
import formats
import query_texts
import schedules
import words as words_of
from group_listing import LIMIT, TIMEOUT, Table, lines_of
from patterns import NotClaimed
from queries import asked_by
from reports import report
from selection import Selection, read_rule
from vslog import HEADER, NotRead, read_units, unit
from words import Refused
from written_logs import written

MOST_QUERY_BYTES, MOST_FEED_BYTES = 65536, 16777216
RING, RECLEN = 65536, 255
SAFE_SEGMENTS = 6  # a ring with fewer words than they have overruns no reader
OF_THREADS = {"shm_cont", "shm_cycles"}  # counters of several feeds that threads may give other values
FULL_DEVICE = "/dev/full"


class Came(typing.NamedTuple):
    """What comes of a run: its status, what it prints, and what lies in its folder, None for a folder."""

    status: int
    stderr: bytes
    stdout: bytes
    files: dict


class Room(typing.NamedTuple):
    """How many bytes standard output, standard error and a file of -w may have; None for as many as come."""

    out: int | None = None
    errors: int | None = None
    file: int | None = None


class Sink:
    """Where bytes go: its name in a message, what it has, and how many bytes it may have."""

    def __init__(self, name, most, has=b""):
        self.name, self.most, self.has = name, most, bytearray(has)

    def write(self, text):
        """Takes a text, or as much of it as there is room for, and then Refused."""
        room = len(text) if self.most is None else max(self.most - len(self.has), 0)
        self.has += text[:room]
        if room < len(text):
            raise Refused(f"vtools: {self.name}: write failed", 1)


class Run:
    """A job, the files around it, and where it writes to: standard output, standard error, and a file of -w or None."""

    def __init__(self, words, files, stdin, room):
        self.words, self.files, self.stdin, self.room = words, dict(files), stdin, room
        self.stdout, self.stderr, self.file = Sink("-", room.out), Sink("stderr", room.errors), None

    def came(self):
        """All that comes of the words."""
        status = 0
        try:
            self.go(words_of.read(self.words))
        except Refused as refused:
            status = refused.status
            with contextlib.suppress(Refused):
                self.stderr.write(f"{refused}\n".encode(errors="surrogateescape"))
        written = {self.file.name: bytes(self.file.has)} if self.file else {}
        return Came(status, bytes(self.stderr.has), bytes(self.stdout.has), self.files | written)

    def go(self, job):
        if job.tool == "varnishstat":
            self.counters(job)
            return
        if job.tool == words_of.CONVERT:
            self.converted(job)
            return
        queries = [self.query(number, job, *given) for number, given in enumerate(job.queries)]
        output = OUTPUTS[job.tool](job)
        items = self.items(job)
        sink = self.sink(job)
        if not sink.has:
            sink.write(output.head)
        self.groups(job, queries, items, output, sink)

    def bytes_of(self, name, most=None):
        """All bytes of a file; Refused where it can't be read, or has more than so many."""
        if name not in self.files:
            check_missing(name)
            raise Refused(f"vtools: {name}: cannot open", 1)
        if self.files[name] is None:
            raise Refused(f"vtools: {name}: read failed", 1)
        if most is not None and len(self.files[name]) > most:
            raise Refused(f"vtools: {name}: larger than {most} bytes", 1)
        return self.files[name]

    def query(self, number, job, option, text):
        """What a text of a query asks, or that of a file."""
        text = self.bytes_of(text, MOST_QUERY_BYTES) if option == "-Q" else text.encode()
        try:
            return asked_by(text, "C" in job.flags)
        except query_texts.Fault as fault:
            raise Refused(f"vtools: query {number}: {fault}") from None

    def listings(self, job):
        """The units of each feed and of made requests, and how often their batches are cut."""
        seg, reclen = job.values.get("--ring", RING), job.values.get("--reclen", RECLEN)
        listings = []
        for number, name in enumerate(job.feeds):
            data = self.bytes_of(name, MOST_FEED_BYTES)
            try:
                listings.append(schedules.read_listing(data, reclen, seg))
            except schedules.BadLine as bad:
                raise Refused(f"vtools: feed {number}: bad line {bad}", 1) from None
        if "--gen" in job.values:
            made = counters.made_listing(*job.values["--gen"])
            listings.append(schedules.read_listing(made, reclen, seg))
        return listings

    def items(self, job):
        """The units that are taken, and between them each overrun and the run that follows it."""
        if "-r" in job.values:
            name = job.values["-r"]
            return self.units(name, self.stdin if name == "-" else self.bytes_of(name))
        seg, listings = job.values.get("--ring", RING), [units for units, _ in self.listings(job)]
        words = sum(unit.words() for units in listings for unit in units)
        if job.order is None and (words >= SAFE_SEGMENTS * seg or len(listings) > 1 and not is_same_in_any_order(job)):
            raise NotClaimed
        _, history = schedules.replayed(listings, seg, seed_of(job))
        return met_of(history)

    def units(self, name, data):
        try:
            yield from read_units(data)
        except NotRead as damage:
            raise Refused(f"vtools: {name}: {damage}", 1) from None

    def sink(self, job):
        """Standard output or the file that is written."""
        name = job.values.get("-w", "-")
        if name == "-":
            sink = self.stdout
        elif name == FULL_DEVICE:
            sink = Sink(name, 0)
        else:
            sink = self.file = self.created(name, job)
        return sink

    def created(self, name, job):
        """The file that -w names."""
        if name == job.values.get("-r"):
            raise NotClaimed
        if name not in self.files and ("/" in name or name in ("", ".", "..")):
            check_missing(name)
            raise Refused(f"vtools: {name}: cannot open", 1)
        if name in self.files and self.files[name] is None:
            raise Refused(f"vtools: {name}: cannot open", 1)
        has = self.files.get(name, b"") if "a" in job.flags else b""
        if has and job.tool == "varnishlog" and "A" not in job.flags and not has.startswith(HEADER):
            raise Refused(f"vtools: {name}: cannot append", 1)
        return Sink(name, self.room.file, has)

    def groups(self, job, queries, items, output, sink):
        """Takes item by item, up to the last group that is kept, and writes what is due."""
        table = Table(job.grouping(), job.values.get("-L", LIMIT), job.values.get("-T", TIMEOUT))
        is_taken = lambda group: not queries or any(holds(group) for holds in queries)
        for group in itertools.islice(filter(is_taken, self.completed(table, items)), job.values.get("-k")):
            sink.write(output.group(group))
        sink.write(output.end())

    def completed(self, table, items):
        """The groups that each item completes, and at the end those of the flush."""
        for item in items:
            if isinstance(item, schedules.Overrun):
                self.stderr.write(schedules.message(item).encode())
                yield from table.flush()
            elif isinstance(item, schedules.Run):
                self.stderr.write(schedules.message(item).encode())
            else:
                yield from table.take_unit(*item)
        yield from table.flush()

    def converted(self, job):
        """Writes each unit of a log, as it is, behind a header."""
        units, sink = self.items(job), self.sink(job)
        sink.write(HEADER)
        for each in units:
            sink.write(unit(*each))

    def counters(self, job):
        """Puts all feeds, and prints names or counters."""
        listings = self.listings(job)
        if "l" in job.flags:
            self.stdout.write(counters.name_lines(job.globs).encode())
            return
        if job.order is None and len(listings) > 1 and OF_THREADS & set(counters.selected(job.globs)):
            raise NotClaimed
        values = counters.replayed_values(listings, job.values.get("--ring", RING), seed_of(job))
        printed = counters.json_text if "j" in job.flags else counters.text_lines
        self.stdout.write(printed(values, job.globs).encode())


def met_of(history):
    """What a reader meets, one after the other: units, overruns, and each run that follows an overrun, before its units."""
    yield from history[0].units
    for part in history[1:]:
        yield part
        if isinstance(part, schedules.Run):
            yield from part.units


def is_same_in_any_order(job):
    """Whether the same is printed in whatever order the units of feeds come: counts of all records, each by itself."""
    return job.tool == "varnishtop" and job.grouping() == "raw" and "-k" not in job.values


def check_missing(name):
    """Nothing is claimed of a name that leads out of the folder, or to itself."""
    if name and {"", ".", ".."} & set(name.split("/")):
        raise NotClaimed


def seed_of(job):
    """The seed of the turns; None where feeds are put first, or on threads, where it makes no difference."""
    return job.order[1] if job.order and job.order[0] == "turns" else None


def selection_of(job):
    return Selection([read_rule(option, text, "C" in job.flags) for option, text, _ in job.rules], job.flags)


class Lines:
    """What varnishlog writes of groups: their text, or with -w and without -A units of a log file."""

    def __init__(self, job):
        self.selection, self.verbose = selection_of(job), "v" in job.flags
        self.is_log = "-w" in job.values and "A" not in job.flags
        self.head = HEADER if self.is_log else b""

    def group(self, group):
        shown = list(self.selection.shown(group))
        if self.is_log:
            return b"".join(written(member.vxid, member.records) for _, member in shown)
        return lines_of(shown, self.verbose)

    def end(self):
        return b""


class AccessLines:
    """What varnishncsa writes of groups."""

    head = b""

    def __init__(self, job):
        self.sides = job.flags & set("bcE")
        try:
            self.pieces = formats.read(job.values.get("-F", access_lines.DEFAULT).encode())
        except formats.Fault as fault:
            raise Refused(f"vtools: format: syntax at {fault}") from None

    def group(self, group):
        return access_lines.lines(self.pieces, [member for _, member in group], self.sides)

    def end(self):
        return b""


class Report:
    """What varnishtop writes at the end, of the records that are shown."""

    head = b""

    def __init__(self, job):
        self.selection, self.first_field, self.records = selection_of(job), "f" in job.flags, []

    def group(self, group):
        self.records += [record for _, member in self.selection.shown(group) for record in member.records]
        return b""

    def end(self):
        return report(self.records, self.first_field)


OUTPUTS = {"varnishlog": Lines, "varnishncsa": AccessLines, "varnishtop": Report}


def came(words, files, stdin=b"", room=Room()):
    """What comes of the words in a folder with these files; NotClaimed where nothing is said of it."""
    return Run(words, files, stdin, room).came()


def main():
    words = sys.argv[1:]
    named = {word: pathlib.Path(word) for word in words if word}
    files = {word: path.read_bytes() for word, path in named.items() if path.is_file()}
    files |= {word: None for word, path in named.items() if path.is_dir()}
    try:
        found = came(words, files, sys.stdin.buffer.read() if "-" in words else b"")
    except NotClaimed:
        sys.exit("vtools: nothing is claimed of these words")
    sys.stdout.buffer.write(found.stdout)
    sys.stdout.flush()
    sys.stderr.buffer.write(found.stderr)
    sys.exit(found.status)


if __name__ == "__main__":
    main()
