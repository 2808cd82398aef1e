"""Names of tags, globs and lists of them, as docs/formats/queries.md and shown.md have them."""

import functools
import re

from vslog import TAGS


@functools.cache
def tags_of(name):
    """The tags of a name, or of a glob with a star first, last or both; none where it is neither."""
    found = re.fullmatch(r"(\*?)([A-Za-z0-9_]*)(\*?)", name)
    if found is None:
        return set()
    first, middle, last = found.groups()
    wanted = (".*" if first else "") + middle + (".*" if last else "")
    return {tag for tag in TAGS[1:] if re.fullmatch(wanted, tag, re.I)}


def first_unknown(names):
    """The place of the first of several names that is no tag's and matches none; None where each is or does."""
    return next((place for place, name in enumerate(names) if not tags_of(name)), None)
