"""Checks that what `==`, orders, hashes, copies and `Debug` of types are, is what std derives of all fields.

Contracts take them for that, and no clause says it. Where they are written by hand a contract says what they are.
"""

import re

from checks.running import TOP, Failed

BY_HAND = {"crates/vsl_top/src/key.rt", "crates/vsl_top/src/line.rt"}
NOT_DERIVED = re.compile(
    r"^.*derive_where.*$|^ *impl(?:<.*>)? (?:\w+::)*(?:PartialEq|Eq|PartialOrd|Ord|Hash|Clone|Copy|Debug)\b.* for .*$", re.M
)


def check(_):
    files = sorted(TOP.glob("crates/*/src/**/*.rt"))
    for path in files:
        name = str(path.relative_to(TOP))
        found = NOT_DERIVED.search(path.read_text())
        if found and name not in BY_HAND:
            raise Failed(f"{name}: not what std derives: {found[0].strip()}")
    return f"{len(files)} files, {len(BY_HAND)} of them by hand"
