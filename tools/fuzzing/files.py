"""What lies in a folder where a program runs: files of units or of bytes, empty folders; and the parts of each.

A part is a list, or bytes, of which some may be left out, and a function that puts what is left in its place.
"""

import typing

import vslog


class Log(typing.NamedTuple):
    """A log file of these units, in this version."""

    units: list
    version: vslog.Version = vslog.TWO

    def data(self):
        return self.version.header + b"".join(vslog.unit(*unit, self.version) for unit in self.units)

    def versions(self):
        """The versions in which its units can be written."""
        return [one for one in vslog.VERSIONS if all(vxid <= one.most_vxid for vxid, _, _ in self.units)]

    def parts(self):
        """Its units, and the records of each; a unit without one is left out."""
        yield self.units, lambda left: self._replace(units=left)
        for at, (vxid, mark, records) in enumerate(self.units):
            yield records, lambda left, at=at, vxid=vxid, mark=mark: self.with_unit(at, vxid, mark, left)

    def with_unit(self, at, *unit):
        *_, records = unit
        return self._replace(units=[*self.units[:at], *[unit] * bool(records), *self.units[at + 1 :]])

    def told(self):
        """The records in lines, with an empty line between units."""
        return b"\n".join(
            b"".join(vslog.raw_line(vxid, mark, *record) for record in records) for vxid, mark, records in self.units
        )


class Bytes(typing.NamedTuple):
    """A file of these bytes."""

    bytes: bytes

    def data(self):
        return self.bytes

    def parts(self):
        """Its lines, and its bytes."""
        yield self.bytes.splitlines(keepends=True), lambda left: Bytes(b"".join(left))
        yield self.bytes, Bytes

    def told(self):
        return b""


class Folder(typing.NamedTuple):
    """An empty folder."""

    def data(self):
        return None

    def parts(self):
        return iter(())

    def told(self):
        return b""
