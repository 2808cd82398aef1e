"""Times a query by transaction over log files of 16 MiB and of 256 MiB beside the same run without it."""

from benches.selection import beside_all


def bench(program, _):
    beside_all(program, 1.3, ["-q", 'RespStatus >= 500 or ReqURL ~ "item"'])
