"""Times varnishstat over made up requests, beside the making of them alone, and over half as many; and over globs.

The time is seen to grow with the requests, and over globs of many stars with their length alone.
"""

from timing import RUNS, in_turn

BYTES = 60000
PAIRS = {  # the ratio of the first to the second that is wanted
    ("varnishstat -1, 100000 requests", "varnishstat -1, 50000 requests"): 2.3,
    (f"varnishstat -l, globs of {2 * BYTES} bytes", f"varnishstat -l, globs of {BYTES} bytes"): 2.3,
    ("varnishstat -1, 100000 requests", "varnishstat -l, 100000 requests"): 2.0,
}


def globs_of(size):
    """Eight globs of so many bytes, half of them stars, which match no name."""
    return [word for number in range(8) for word in ("-f", "*M" * (size // 2 - 1) + f"*{number}")]


def commands_of(program):
    """The commands by their labels."""
    made = {count: [program, "--gen", f"{count},7", "--ring", "1048576", "--feed-first"] for count in (50000, 100000)}
    return {
        **{f"varnishstat -1, {count} requests": [*words, "varnishstat", "-1"] for count, words in made.items()},
        "varnishstat -l, 100000 requests": [*made[100000], "varnishstat", "-l"],
        **{
            f"varnishstat -l, globs of {size} bytes": [program, "varnishstat", "-l", *globs_of(size)]
            for size in (BYTES, 2 * BYTES)
        },
    }


def bench(program, _):
    commands = commands_of(program)
    least = {label: of.seconds for label, of in zip(commands, in_turn(commands.values()))}
    print(f"least of {RUNS} runs in turn")
    for label, seconds in least.items():
        print(f"{label:42} {seconds:9.4f} s")
    for (label, other), wanted in PAIRS.items():
        print(f"ratio of {label} to {other}: {least[label] / least[other]:.2f}, of which at most {wanted} is wanted")
