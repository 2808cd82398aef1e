"""Reads a format of access lines, or tells its fault, by docs/formats/access-lines.md alone.

`read(text)` gives its pieces: bytes that stand for themselves, and pairs of a formatter's letter and what stands in its
braces, which is None without them. Of `%{VSL:..}x` that is a Part.
"""

import re
import typing

from taglists import tags_of

TEXTS = {b"%%": b"%", b"\\n": b"\n", b"\\t": b"\t"}
LETTERS = b"hlutrmUqHsbIODT"
TIMES = [b"sec", b"msec", b"usec", b"msec_frac", b"usec_frac"]
OF_VARNISH = [b"time_firstbyte", b"hitmiss", b"handling", b"side", b"vxid"]
TIME = re.compile(rb"(?:%[YmdeHMSbFTz%]|[^%])*", re.S)
PART = re.compile(rb"VSL:([A-Za-z0-9_]+)(?::([^[]*))?(?:\[([0-9]+)\])?", re.S)
MOST_FIELD = 9999


class Fault(Exception):
    """No formatter begins at this byte of the text."""


class Part(typing.NamedTuple):
    """A tag, and a prefix and a field, or None for each."""

    tag: str
    prefix: bytes | None
    field: int | None


def read_part(braced):
    """What `VSL:` and the rest ask for; None where it asks for nothing."""
    found = PART.fullmatch(braced)
    tags = tags_of(found[1].decode()) if found else []
    field = int(found[3]) if found and found[3] else None
    if len(tags) != 1 or field is not None and not 1 <= field <= MOST_FIELD:
        return None
    return Part(*tags, found[2], field)


def read_extra(braced):
    """What stands in the braces of an `x`; None where no value has this name."""
    kind, colon, name = braced.partition(b":")
    if not colon or kind == b"Varnish" and name not in OF_VARNISH:
        return None
    if kind == b"VSL":
        return read_part(braced)
    return braced if kind in (b"Varnish", b"VCL_Log") else None


def read_formatter(text, at):
    """The formatter that begins there, and its end; None where none does."""
    plain = re.compile(rb"%%([%s])" % LETTERS).match(text, at)
    if plain:
        return (plain[1], None), plain.end()
    found = re.compile(rb"%\{([^}]*)\}([iotx])").match(text, at)
    if found is None:
        return None
    braced, letter = found.groups()
    if letter == b"x":
        braced = read_extra(braced)
    if letter == b"t" and braced not in TIMES and not TIME.fullmatch(braced):
        return None
    return None if braced is None else ((letter, braced), found.end())


def read(text):
    """The pieces of a format; Fault where one of them isn't whole."""
    pieces, at = [], 0
    while at < len(text):
        here = text[at : at + 2]
        if here in TEXTS:
            pieces.append(TEXTS[here])
            at += 2
        elif here[:1] != b"%":
            pieces.append(here[:1])
            at += 1
        elif formatter := read_formatter(text, at):
            pieces.append(formatter[0])
            at = formatter[1]
        else:
            raise Fault(at)
    return pieces
