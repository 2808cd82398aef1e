"""Log files and raw lines, by the rules of docs/formats alone: all scripts here read and write them so.

A unit is its VXID, its mark (`c`, `b` or `-`), and its records, each the name of a tag and a payload.
"""

import pathlib
import re
import struct
import typing


class Version(typing.NamedTuple):
    """What tells one version of log files from another: how a file begins, and how many words say whose a record is."""

    header: bytes
    id_words: int
    most_words: int  # of a unit

    @property
    def most_vxid(self):
        """The highest VXID: all bits of those words but the two highest, which are the mark's."""
        return (1 << 32 * self.id_words - 2) - 1


ONE = Version(b"VSLOG-1\n", 1, 1048576)
TWO = Version(b"VSLOG-2\n", 2, 2097152)
VERSIONS = (ONE, TWO)
# Log files are written in version 2, and are read in both.
HEADER, MOST_WORDS, MOST_VXID = TWO.header, TWO.most_words, TWO.most_vxid
UNIT_TOP, MOST_PAYLOAD, MOST_DIGITS = 0xFE, 4000, 19
TAGS_PAGE = pathlib.Path(__file__).resolve().parents[2] / "docs" / "formats" / "tags.md"
MARKS = "-cb"  # by the two bits above a VXID


def listed_tags():
    """The names of the tags by their numbers, by FORMATS, "Tags"; no tag has the number 0."""
    text = TAGS_PAGE.read_text().split("\n## Tags\n")[1].split("\n## ")[0]
    tags = {int(number): name for number, name in re.findall(r"(\d+) (\w+) \|", text)}
    endings, *messages = [line.strip("| ").split(" | ") for line in text.split("with eight tags each:")[1].split("\n") if line[:1] == "|"]
    for message, *numbers in messages[1:]:
        tags.update((int(number), message + ending) for number, ending in zip(numbers, endings))
    return ["none"] + [tags[number] for number in range(1, len(tags) + 1)]


TAGS = listed_tags()
NUMBERS = {name: number for number, name in enumerate(TAGS)}


class NotRead(Exception):
    """A log file isn't whole: the header is wrong at this byte, or no unit begins there. The message says which."""

    def __init__(self, what, at):
        super().__init__(f"{what} at {at}")
        self.at = at


def record_words(payload, version=TWO):
    """One word, those that say whose the record is, and four bytes of the payload in each that follows."""
    return 1 + version.id_words + (len(payload) + 3) // 4


def unit_words(records, version=TWO):
    """One word for a unit, and those of its records."""
    return 1 + sum(record_words(payload, version) for _, payload in records)


def unit(vxid, mark, records, version=TWO):
    """The bytes of a unit."""
    whose = (MARKS.index(mark) * (version.most_vxid + 1) + vxid).to_bytes(4 * version.id_words, "little")
    body = b"".join(
        struct.pack("<I", NUMBERS[tag] << 24 | len(payload)) + whose + payload + bytes(-len(payload) % 4)
        for tag, payload in records
    )
    return struct.pack("<I", (UNIT_TOP << 24) + 1 + len(body) // 4) + body


def version_of(data):
    """The version of a log file, by its first eight bytes. Where they are no header, NotRead."""
    for at in range(len(HEADER)):
        if not any(version.header.startswith(data[: at + 1]) for version in VERSIONS) or at == len(data):
            raise NotRead("not a log", at)
    return next(version for version in VERSIONS if data[: len(version.header)] == version.header)


def read_units(data):
    """The units of a log file. Where it isn't whole, the units before, and then NotRead."""
    version = version_of(data[: len(HEADER)])
    at = len(HEADER)
    while at < len(data):
        found = read_unit(data[at : at + 4 * int.from_bytes(data[at : at + 3], "little")], version)
        if found is None:
            raise NotRead("damaged", at)
        yield found[1:]
        at += found[0]


def read_unit(data, version=TWO):
    """The unit with which the bytes begin, after its length in bytes; None where it isn't whole and correct."""
    end, head = 4 * int.from_bytes(data[:3], "little"), 4 + 4 * version.id_words
    if data[3:4] != bytes([UNIT_TOP]) or not 4 + head <= end <= 4 * version.most_words or end > len(data):
        return None
    records, at, first = [], 4, data[8 : 4 + head]
    mark, vxid = divmod(int.from_bytes(first, "little"), version.most_vxid + 1)
    while at + head <= end:
        tag, start, stop = data[at + 3], at + head, at + head + int.from_bytes(data[at : at + 3], "little")
        whose, at = data[at + 4 : start], (stop + 3) // 4 * 4
        right = 1 <= tag < len(TAGS) and stop - start <= MOST_PAYLOAD and at <= end and whose == first
        if not right or mark == 3 or any(data[stop:at]):
            return None
        records.append((TAGS[tag], data[start:stop]))
    return (end, vxid, MARKS[mark], records) if at == end else None


def escaped(payload):
    """A payload as it is printed."""
    return re.sub(rb"[\x00-\x1f\x7f]", lambda byte: b"\\x%02x" % ord(byte[0]), payload)


def raw_line(vxid, mark, tag, payload):
    """The raw line of a record, which is a line of a listing, too."""
    return b"%10d %-14s %s %s\n" % (vxid, tag.encode(), mark.encode(), escaped(payload))
