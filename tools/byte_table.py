#!/usr/bin/env python3
"""Prints crates/acceptance_support/src/byte_table.rt: what single-byte changes do to a log file of each version.

The file has two units: a backend's (VXID 3: Begin `bereq 2 fetch`, End) and a client's (VXID 2: Begin `req 1 rxreq`,
Link `bereq 3 fetch`, End). For each of its places and each of the 256 values there, tools/reference/vslog.py, which
follows the rules of the format alone, says whether the file is whole and how many units it has; no output of the
program is used.

    tools/byte_table.py >crates/acceptance_support/src/byte_table.rt
"""

import pathlib
import sys
import textwrap

sys.dont_write_bytecode = True
sys.path.append(str(pathlib.Path(__file__).resolve().parent / "reference"))
from vslog import ONE, TWO, NotRead, read_units, unit

MOST_ROWS = 60  # columns of rows that rt fmt leaves in a line
HEAD = """\
//! What single-byte changes do to a log file of each version. Printed by tools/byte_table.py, which has a decoder of
//! its own.

/// A log file, and what a change of one of its bytes does.
#[derive(Clone, Copy)]
pub struct ChangedBytes {
    pub name: &'static str,
    /// The file: a backend's unit (VXID 3: Begin `bereq 2 fetch`, End) and a client's (VXID 2: Begin `req 1 rxreq`, Link
    /// `bereq 3 fetch`, End).
    pub bytes: &'static [u8],
    /// Where the backend's unit ends.
    pub first_end: usize,
    /// The places of each kind of byte.
    pub kinds: &'static [&'static [usize]],
    /// For each place the least value of the range round its own byte with which the file stays whole and has two units.
    pub first_whole: &'static [u8],
    /// The greatest value of that range.
    pub last_whole: &'static [u8],
    /// A place, and another range of values with which the file stays whole and has two units: both ends.
    pub also_whole: &'static [(usize, u8, u8)],
    /// A place, a value, how many units it leaves, and the byte at which no unit begins then: the header of a unit counts
    /// fewer words, up to the end of a record, so that the unit is whole and no unit follows it; or that of the file is
    /// another version's. The values that stand nowhere here leave the units before the changed one, or a wrong header.
    pub ends_early: &'static [(usize, u8, usize, u64)],
}\
"""


def read(data):
    """How many units the file has, and the byte at which it is wrong, or None where it is whole."""
    units = 0
    try:
        for _ in read_units(data):
            units += 1
    except NotRead as damage:
        return units, damage.at
    return units, None


def ranges(values):
    """The values as ranges with both ends."""
    found = []
    for value in values:
        if found and found[-1][1] == value - 1:
            found[-1][1] = value
        else:
            found.append([value, value])
    return [tuple(pair) for pair in found]


def print_list(values, indent, name=""):
    """Prints a list of a table, perhaps a field of it, in lines of at most a hundred columns."""
    text, blanks = ", ".join(map(str, values)), " " * indent
    line = "%s%s&[%s]," % (blanks, name, text)
    if len(line) <= 99:
        print(line)
        return
    print("%s%s&[" % (blanks, name))
    print(textwrap.fill(text + ",", 99, initial_indent=blanks + "    ", subsequent_indent=blanks + "    "))
    print("%s]," % blanks)


def print_rows(name, rows):
    """Prints a field of a table that is a list of rows, each in a line where they don't fit in one."""
    texts = ["(%s)" % ", ".join(map(str, row)) for row in rows]
    line = "[%s]" % ", ".join(texts)
    if len(line) <= MOST_ROWS:
        print("    %s: &%s," % (name, line))
        return
    print("    %s: &[" % name)
    for text in texts:
        print("        %s," % text)
    print("    ],")


def changes(data, header, first_end):
    """The ranges round each byte with which the file stays whole, other such ranges, and units that end early."""
    first, last, also, early = [], [], [], []
    for place, old in enumerate(data):
        whole, left = [], {}
        for value in range(256):
            changed = data[:place] + bytes([value]) + data[place + 1 :]
            units, wrong = read(changed)
            if wrong is None:
                assert units == 2, (place, value, units)
                whole.append(value)
            else:
                left.setdefault((units, wrong), []).append(value)
        for low, high in ranges(whole):
            if low <= old <= high:
                first.append(low)
                last.append(high)
            else:
                also.append((place, low, high))
        # other values leave the units before the changed one, which is wrong, or a wrong header; the rest are listed
        before = 0 if place < first_end else 1
        begin = place if place < header else (header, first_end)[before]
        for (units, wrong), values in left.items():
            if (units, wrong) != (before, begin):
                early += [(place, value, units, wrong) for value in values]
    assert len(first) == len(data)
    return first, last, also, early


# The kinds of bytes, in the order of the table.
KINDS = [
    "what is the same in each file: its header, and the mark of a unit's header",
    "the low byte of the words that a unit's header counts",
    "the low byte of the length of a payload",
    "the other bytes of such a count or length",
    "a tag",
    "a VXID",
    "the mark of a record, in the byte of its VXID's highest bits",
    "a payload",
    "what fills its last word",
]


def kinds_of(data, version):
    """The kind of each byte of a log file, by its place in KINDS."""
    kinds = [0] * len(version.header)
    while len(kinds) < len(data):
        count = int.from_bytes(data[len(kinds) : len(kinds) + 3], "little")
        end = len(kinds) + 4 * count
        kinds += [1, 3, 3, 0]
        while len(kinds) < end:
            length = int.from_bytes(data[len(kinds) : len(kinds) + 3], "little")
            kinds += [2, 3, 3, 4] + [5] * (4 * version.id_words - 1) + [6] + [7] * length + [8] * (-length % 4)
    assert len(kinds) == len(data)
    return kinds


def print_kinds(kinds):
    """Prints the places of each kind."""
    print("    kinds: &[")
    for kind, name in enumerate(KINDS):
        print("        // %s" % name)
        print_list([place for place, of in enumerate(kinds) if of == kind], 8)
    print("    ],")


def print_table(file, table, name, version):
    """Prints the file of a version and its table."""
    backend = unit(3, "b", [("Begin", b"bereq 2 fetch"), ("End", b"")], version)
    client = unit(2, "c", [("Begin", b"req 1 rxreq"), ("Link", b"bereq 3 fetch"), ("End", b"")], version)
    data, first_end = version.header + backend + client, len(version.header + backend)
    assert read(data) == (2, None)
    first, last, also, early = changes(data, len(version.header), first_end)
    print()
    print("/// The bytes of the file of %s." % name)
    print("pub const %s: [u8; %d] = [" % (file, len(data)))
    text = ", ".join("0x%02x" % value for value in data) + ","
    print(textwrap.fill(text, 99, initial_indent="    ", subsequent_indent="    "))
    print("];")
    print()
    print("/// That file and its changes.")
    print("pub const %s: ChangedBytes = ChangedBytes {" % table)
    print('    name: "%s",' % name)
    print("    bytes: &%s," % file)
    print("    first_end: %d," % first_end)
    print_kinds(kinds_of(data, version))
    print_list(first, 4, "first_whole: ")
    print_list(last, 4, "last_whole: ")
    print_rows("also_whole", also)
    print_rows("ends_early", sorted(early))
    print("};")


def main():
    print(HEAD)
    print_table("REQUEST_WITH_FETCH", "CHANGES", "version 2", TWO)
    print_table("OLD_REQUEST_WITH_FETCH", "OLD_CHANGES", "version 1", ONE)


if __name__ == "__main__":
    main()
