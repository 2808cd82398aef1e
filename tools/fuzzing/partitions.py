"""Cases that compare what the rules of grouping give record by record with the partition of a log, told at once."""

import typing

import partition
from fuzzing.files import Log
from patterns import NotClaimed


class Partition(typing.NamedTuple):
    """Units, a grouping and its limits, by which the log is regular and calm, or nothing is compared."""

    units: list
    grouping: str
    limit: int
    timeout: int

    def difference(self, *_):
        if not partition.is_claimed(*self):
            raise NotClaimed
        same = all(partition.by_rules(*self, flushed) == partition.told(*self[:2]) for flushed in (True, False))
        return None if same else "the groups of a regular and calm log aren't its partition"

    def parts(self):
        for part, put in Log(self.units).parts():
            yield part, lambda left, put=put: self._replace(units=put(left).units)

    def shown(self):
        told = Log(self.units).told().decode(errors="backslashreplace")
        return f"-g {self.grouping} -L {self.limit} -T {self.timeout}, of the records\n{told}".rstrip()
