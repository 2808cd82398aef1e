"""Times `-i ReqURL` by transaction over log files of 16 MiB and of 256 MiB beside the same run that shows all."""

import os
import tempfile

from logs import MEBIBYTE, fill
from timing import RUNS, in_turn


def beside_all(program, wanted, options):
    """Times options of varnishlog by transaction beside the same run without them, over the real log repeated."""
    print("-g vxid", *options)
    print(f"least of {RUNS} runs; at most {wanted} is wanted of the ratio")
    print(f"{'bytes':>12}{'without':>12}{'with':>12}{'ratio':>8}")
    with tempfile.TemporaryDirectory() as folder:
        log = os.path.join(folder, "log")
        for most in (16 * MEBIBYTE, 256 * MEBIBYTE):
            size = fill(log, most)
            by_transaction = [program, "varnishlog", "-g", "vxid"]
            without, chosen = in_turn([[*by_transaction, "-r", log], [*by_transaction, *options, "-r", log]])
            ratio = chosen.seconds / without.seconds
            print(f"{size:12}{without.seconds:10.4f} s{chosen.seconds:10.4f} s{ratio:8.2f}")


def bench(program, _):
    beside_all(program, 0.6, ["-i", "ReqURL"])
