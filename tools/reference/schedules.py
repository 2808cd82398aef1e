"""What a reader takes of feeds that are replayed in a stated order, by docs/formats/feeds.md alone.

It is made to be read, not to be fast.

A ring of eight segments is an unbounded line of places here, on which each unit has a start and an end, and of which
the ring has the last lap. No word is stored: what a reader finds follows from the places.
"""

import bisect
import collections
import dataclasses
import re
import typing

from vslog import MOST_DIGITS, MOST_VXID, TAGS, raw_line, record_words, unit_words

SEGMENTS = 8  # of a ring
OVERRUN_DISTANCE = 6  # segments by which the tail is ahead of a reader that is overrun
SEEK_DISTANCE = 4  # segments by which the tail is ahead of the segment in which that reader goes on
NAMES = {name.lower().encode(): name for name in TAGS[1:]}
LINE = re.compile(rb" *([0-9]{1,%d}) +([^ ]+) +([cb-])(?: (.*))?" % MOST_DIGITS, re.DOTALL)


class BadLine(Exception):
    """A listing has a line that is none of a listing; the number counts from 1."""


class Unit(typing.NamedTuple):
    """What a writer puts at once: records of one VXID and mark, each a tag and a payload."""

    vxid: int
    mark: str
    records: list

    def words(self):
        return unit_words(self.records)


def listing_lines(data):
    """The lines without their ends: a line feed, and one carriage return before it. The last may have no line feed."""
    *ended, last = data.split(b"\n")
    return [line.removesuffix(b"\r") for line in ended] + ([last] if last else [])


def read_line(line, number):
    """VXID, tag, mark and payload of a line."""
    found = LINE.fullmatch(line)
    if found is None or int(found[1]) > MOST_VXID or found[2].lower() not in NAMES:
        raise BadLine(number)
    return int(found[1]), NAMES[found[2].lower()], found[3].decode(), found[4] or b""


def read_listing(data, reclen, seg):
    """The units of a listing, and how often a batch was cut because a segment has no room for more of it."""
    most_payload = min(reclen, 4 * (seg - unit_words([("End", b"")])))
    units, cuts, batch = [], 0, None  # the batch is the last unit, where it may still grow
    for number, line in enumerate(listing_lines(data), 1):
        if line.startswith(b"#"):
            continue
        if not line.strip(b" "):
            batch = None
            continue
        vxid, tag, mark, payload = read_line(line, number)
        payload = payload[:most_payload]
        if batch and (vxid == 0 or (vxid, mark) != (batch.vxid, batch.mark)):
            batch = None
        if batch and batch.words() + record_words(payload) > seg:
            batch = None
            cuts += 1
        if batch is None:
            batch = Unit(vxid, mark, [])
            units.append(batch)
        batch.records.append((tag, payload))
        if tag == "End":
            batch = None
    return units, cuts


class Draws:
    """The numbers that a seed gives one after the other; they choose whose turn it is."""

    def __init__(self, seed):
        self.drawn = seed % 65537

    def draw(self):
        self.drawn = (75 * self.drawn + 74) % 65537
        return self.drawn

    def pick(self, active):
        return self.draw() % active


class Ring:
    """Where the units of the log lie on the line of places, how many wrapped, and how many writers haven't left."""

    def __init__(self, seg, writers):
        self.seg, self.lap, self.writers = seg, SEGMENTS * seg, writers
        self.units, self.starts, self.ends, self.tail, self.wraps = [], [], [], 0, 0

    def put(self, unit):
        """Puts a unit at the tail; or, where it and the mark behind it have no room in the lap, at the next lap."""
        start = self.tail
        if start % self.lap + unit.words() >= self.lap:
            start = (start // self.lap + 1) * self.lap
            self.wraps += 1
        self.tail = start + unit.words()
        self.units.append(unit)
        self.starts.append(start)
        self.ends.append(self.tail)

    def segment(self, place):
        return place // self.seg

    def segment_start(self, segment):
        """The least place of a segment where a unit starts or ends."""
        return min(place for place in [0, *self.starts, *self.ends] if self.segment(place) == segment)

    def next_unit(self, place):
        """The number of the first unit that starts there or behind it: one that wrapped started behind the tail."""
        return bisect.bisect_left(self.starts, place)


@dataclasses.dataclass
class Run:
    """Units that a reader took one after the other, since it began in a segment.

    `first` is the number of the first, and `missed` how many of the log were missed before it.
    """

    segment: int
    first: int
    missed: int
    units: list

    def behind(self):
        """The number of the unit behind the last."""
        return self.first + len(self.units)


class Overrun(typing.NamedTuple):
    """A reader in the segment `at` found the tail in the segment `seen`."""

    at: int
    seen: int


class Reader:
    """A cursor, which stands where the last unit that it took ends, and its history of runs and overruns."""

    def __init__(self, ring):
        self.ring, self.place, self.history = ring, 0, [Run(0, 0, 0, [])]

    def next(self):
        """Answers "overrun", "took", "ended" or "not yet". After an overrun the reader goes on nearer to the tail."""
        ring = self.ring
        at, seen = ring.segment(self.place), ring.segment(ring.tail)
        if seen >= at + OVERRUN_DISTANCE:
            self.place = ring.segment_start(seen - SEEK_DISTANCE)
            first = ring.next_unit(self.place)
            missed = first - self.history[-1].behind()
            self.history += [Overrun(at, seen), Run(seen - SEEK_DISTANCE, first, missed, [])]
            return "overrun"
        if self.place == ring.tail:
            return "not yet" if ring.writers > 0 else "ended"
        number = ring.next_unit(self.place)
        self.history[-1].units.append(ring.units[number])
        self.place = ring.ends[number]
        return "took"


def put_feeds(ring, feeds):
    """Puts feed after feed."""
    for units in feeds:
        for unit in units:
            ring.put(unit)
        ring.writers -= 1


def read_to_the_end(reader):
    while reader.next() != "ended":
        pass


def take_turns(ring, reader, feeds, seed):
    """Gives turns by draws to the writers that haven't left, in the order of feeds, and to the reader behind them.

    A reader that found nothing yet has no turn before a writer had one. All is over when the reader meets the end; or,
    where nobody reads, when all writers have left.
    """
    draws, writers, waits = Draws(seed), [collections.deque(units) for units in feeds], False
    while reader or writers:
        turn = draws.pick(len(writers) + (1 if reader and not waits else 0))
        if turn == len(writers):
            answer = reader.next()
            if answer == "ended":
                return
            waits = answer == "not yet"
            continue
        waits = False
        if writers[turn]:
            ring.put(writers[turn].popleft())
        else:
            del writers[turn]
            ring.writers -= 1


def replayed(feeds, seg, seed):
    """The ring and the reader's history for the units of each feed, in turns of a seed; without one, feeds first."""
    ring = Ring(seg, len(feeds))
    reader = Reader(ring)
    if seed is None:
        put_feeds(ring, feeds)
        read_to_the_end(reader)
    else:
        take_turns(ring, reader, feeds, seed)
    return ring, reader.history


def replayed_unread(feeds, seg, seed):
    """The ring for the units of each feed where nobody reads, in turns of a seed; without one, feed after feed."""
    ring = Ring(seg, len(feeds))
    if seed is None:
        put_feeds(ring, feeds)
    else:
        take_turns(ring, None, feeds, seed)
    return ring


def raw_lines(history):
    """The lines of all records that were taken."""
    units = [unit for item in history if isinstance(item, Run) for unit in item.units]
    return b"".join(raw_line(unit.vxid, unit.mark, *record) for unit in units for record in unit.records)


def message(item):
    """The message of an overrun, or of how many units were missed before a run."""
    if isinstance(item, Overrun):
        return f"vtools: log overrun at segment {item.at}, counter {item.seen}\n"
    return f"vtools: missed {item.missed} units\n"


def messages(history):
    """The messages of all overruns, and of the runs that follow them: all but the first."""
    return "".join(message(item) for item in history[1:])


def taken_and_missed(history):
    """How many units were taken, and how many missed."""
    runs = [item for item in history if isinstance(item, Run)]
    return sum(len(run.units) for run in runs), sum(run.missed for run in runs)
