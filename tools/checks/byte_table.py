"""Compares the table of changed bytes of the tests with what tools/byte_table.py prints."""

from checks.running import TOP, made_by, same_text

TABLE = "crates/acceptance_support/src/byte_table.rt"


def check(_):
    table = (TOP / TABLE).read_bytes()
    same_text(TABLE, made_by("tools/byte_table.py"), table)
    return "%d lines" % table.count(b"\n")
