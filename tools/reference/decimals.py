"""Numbers, fields and prefixes of payloads, as docs/formats/queries.md has them."""

import re

PART = 10**18  # numbers are counted in parts of 10^-18


def parts_of(text):
    """A number as a count of parts; None where the bytes are no number."""
    found = re.fullmatch(rb"(-?)([0-9]{1,18})(?:\.([0-9]{1,18}))?", text)
    if found is None:
        return None
    parts = int(found[2]) * PART + int((found[3] or b"").ljust(18, b"0"))
    return -parts if found[1] else parts


def cut(parts, unit):
    """How many whole units there are in so many parts, cut toward zero."""
    return abs(parts) // unit * (1 if parts >= 0 else -1)


def field(payload, number):
    """The field of this number, from 1, between white space; None where there are fewer."""
    fields = payload.split()
    return fields[number - 1] if number <= len(fields) else None


def value_after(payload, prefix):
    """What follows a prefix, in any case, and a colon, without leading white space; None without the prefix."""
    if not payload.lower().startswith(prefix.lower() + b":"):
        return None
    return payload[len(prefix) + 1 :].lstrip()
