"""Times vtools beside Varnish's own tools on one log, which varnishd writes while wrk sends it requests, and then alone
on that log two and four times as long, with the peaks of memory; and beside them on two logs that are made, of many
requests that are open at once, and of one long session. It installs nothing, and works on 127.0.0.1 alone. It tests
nothing but that both print the same raw lines.
"""

import contextlib
import datetime
import itertools
import os
import platform
import shlex
import shutil
import signal
import subprocess
import sys
import tempfile

from vslog import HEADER

from benches.varnish_traffic import make_log
from logs import esi_trees, one_session, open_at_once, our_units, repeat, single_records, varnish_records
from timing import RUNS, best, run
from varnish_log import NARROW

NEEDED = ["varnishlog", "varnishncsa", "varnishtop", "varnishd", "wrk"]
COPIES = (1, 2, 4)
OUT = "OUT"  # stands for the file that is written
MOST_MEBIBYTES = 16
# each command, behind the ratio of our time to theirs that is wanted
COMMANDS = [
    (0.12, ["varnishlog", "-g", "raw"]),
    (0.18, ["varnishlog", "-g", "vxid"]),
    (0.18, ["varnishlog", "-g", "request"]),
    (0.30, ["varnishlog", "-g", "session", "-L", "100000"]),
    (0.30, ["varnishlog", "-g", "request", "-q", "RespStatus >= 500"]),
    (0.35, ["varnishlog", "-g", "vxid", "-i", "ReqURL"]),
    (0.50, ["varnishlog", "-g", "raw", "-w", OUT]),
    (0.35, ["varnishncsa"]),
    (0.35, ["varnishncsa", "-F", "%h %m %U %s %b %D"]),
    (0.20, ["varnishtop", "-1"]),
    (0.35, ["varnishtop", "-1", "-i", "ReqURL"]),
]
# more forms that a user writes: with rules of patterns, and over records by themselves
FORMS = [
    (0.40, ["varnishlog", "-g", "vxid", "-I", "ReqHeader:^Host"]),
    (0.40, ["varnishlog", "-g", "vxid", "-C", "-I", "host"]),
    (0.40, ["varnishlog", "-g", "vxid", "-X", "ReqHeader:Cookie"]),
    (0.40, ["varnishlog", "-g", "raw", "-I", "ReqHeader:^Host"]),
    (0.40, ["varnishlog", "-g", "raw", "-i", "ReqURL"]),
    (0.40, ["varnishlog", "-g", "raw", "-c"]),
    (0.40, ["varnishlog", "-g", "raw", "-x", "ReqHeader"]),
    (0.40, ["varnishlog", "-g", "raw", "-q", "RespStatus >= 500"]),
    (0.40, ["varnishlog", "-g", "raw", "-i", "ReqURL", "-w", OUT]),
    (0.40, ["varnishncsa", "-b"]),
    (0.40, ["varnishtop", "-1", "-g", "raw", "-i", "ReqURL"]),
    (0.40, ["varnishtop", "-1", "-I", "ReqHeader:^Host"]),
]
# logs that are made: what they have, the name that their files begin with, their units, and commands as above
MADE = [
    ("100,000 requests, of which 4,000 are open at once", "open", lambda: open_at_once(100_000, 4_000), [
        (0.40, ["varnishlog", "-g", "vxid", "-L", "5000"]),
        (0.40, ["varnishlog", "-g", "request", "-L", "5000"]),
        (0.40, ["varnishlog", "-g", "request", "-L", "5000", "-q", "RespStatus >= 500"]),
    ]),
    ("One session of 50,000 requests", "session", lambda: one_session(50_000), [
        (0.40, ["varnishlog", "-g", "session", "-L", "100000"]),
        (0.40, ["varnishlog", "-g", "session", "-L", "100000", "-q", "RespStatus >= 500"]),
    ]),
    ("20,000 requests whose units have one record each", "single", lambda: single_records(open_at_once(20_000, 40)), [
        (0.60, ["varnishlog", "-g", "raw"]),
        (0.60, ["varnishlog", "-g", "raw", "-w", OUT]),
        (0.60, ["varnishlog", "-g", "vxid", "-i", "ReqURL"]),
        (0.60, ["varnishlog", "-g", "request", "-q", "RespStatus >= 500"]),
        (0.60, ["varnishncsa"]),
        (0.60, ["varnishtop", "-1", "-i", "ReqURL"]),
    ]),
    ("100 pages, each of 1,000 parts that include parts, five deep", "esi", lambda: esi_trees(100, 1_000, 5), [
        (0.60, ["varnishlog", "-g", "request", "-L", "5000"]),
        (0.60, ["varnishncsa", "-L", "5000"]),
    ]),
]


def in_turn(commands, out):
    """The run of least time of each command, with the largest peak. What else the machine does falls on all of them."""
    taken = []
    for _ in range(RUNS):
        for words in commands:
            with contextlib.suppress(FileNotFoundError):
                os.remove(out)
            taken.append(run([out if word == OUT else word for word in words]))
    runs = [taken[at :: len(commands)] for at in range(len(commands))]
    return [best(of) for of in runs]


def first_line(*words):
    """The first line that a command prints, or that it tells as a message."""
    done = subprocess.run(words, stdin=subprocess.DEVNULL, stdout=subprocess.PIPE, stderr=subprocess.STDOUT, text=True)
    return done.stdout.partition("\n")[0]


def value_in(path, name):
    """The value of a name in a file of the system."""
    with open(path) as file:
        return next(line.partition(":")[2].strip() for line in file if line.startswith(name))


def logs_in(folder):
    """The logs of a folder, ours and theirs, which are made where they are missing."""
    ours, theirs = (os.path.join(folder, name) for name in ("ours.vslog", "theirs.vslog"))
    if not (os.path.exists(ours) and os.path.exists(theirs)):
        make_log(theirs)
        with open(ours + ".part", "wb") as file:
            file.write(HEADER)
            file.writelines(our_units(theirs))
        os.replace(ours + ".part", ours)
    return ours, theirs


def made_logs_in(folder, name, units):
    """The logs of a folder whose units are made, ours and theirs, which are made where they are missing."""
    ours, theirs = (os.path.join(folder, f"{name}-{whose}") for whose in ("ours.vslog", "theirs.vslog"))
    if not (os.path.exists(ours) and os.path.exists(theirs)):
        log = HEADER + b"".join(units())
        for path, content in ((ours, log), (theirs, NARROW.file_mark + varnish_records(log))):
            with open(path + ".part", "wb") as file:
                file.write(content)
            os.replace(path + ".part", path)
    return ours, theirs


def compare_raw(program, ours, theirs):
    """Compares the raw lines of both logs, and answers the number of records and of clients' requests."""
    raw, records, requests = ["varnishlog", "-g", "raw", "-r"], 0, 0
    with (
        subprocess.Popen([program, *raw, ours], stdout=subprocess.PIPE) as own,
        subprocess.Popen([*raw, theirs], stdout=subprocess.PIPE) as other,
    ):
        for line, same in itertools.zip_longest(own.stdout, other.stdout):
            if line != same:
                sys.exit(f"raw lines differ: {line} and {same}")
            records += 1
            requests += b" Begin " in line and line.endswith(b" rxreq\n")
    return records, requests


def print_facts(program, ours, theirs, counts):
    """Prints on what the times were taken."""
    memory = int(value_in("/proc/meminfo", "MemTotal").split()[0]) / (1 << 20)
    records, requests = counts
    print(f"- {datetime.datetime.now(datetime.timezone.utc):%Y-%m-%d %H:%M} UTC, least of {RUNS} runs in turn")
    print(f"- {value_in('/proc/cpuinfo', 'model name')}, {os.cpu_count()} processors, {memory:.1f} GiB of memory")
    print(f"- {platform.system()} {platform.release()}, load average {os.getloadavg()[0]:.1f} before")
    for words in ([program, "--version"], ["varnishd", "-V"], ["wrk", "--version"]):
        print(f"- {first_line(*words)}")
    print(f"- {requests} requests of clients, {records} records, of which both print the same raw lines")
    print(f"- {os.path.getsize(ours)} bytes in our layout, {os.path.getsize(theirs)} bytes in Varnish's")


def print_row(cells):
    """Prints a row of a table, whose first column is wide."""
    print(f"| {cells[0]:58} |" + "".join(f" {cell:>9} |" for cell in cells[1:]), flush=True)


def print_head(cells):
    """Prints the head of a table, whose columns but the first have their text at the right."""
    print()
    print_row(cells)
    print(f"|{'-' * 60}|" + f"{'-' * 10}:|" * (len(cells) - 1))


def cells_of(taken):
    """The cells of a run."""
    return f"{taken.seconds:.3f}", f"{taken.user:.3f}", f"{taken.peak:.1f}"


def print_beside(program, ours, theirs, out, commands):
    """Prints each command's times beside those of Varnish's own tool, and answers the largest of our peaks."""
    columns = [f"{whose} {what}" for whose in ("our", "their") for what in ("s", "user", "MiB")]
    print_head(["Command", *columns, "ratio", "wanted"])
    peak = 0
    for wanted, words in commands:
        own, other = in_turn([[program, *words, "-r", ours], [*words, "-r", theirs]], out)
        ratio, peak = own.seconds / other.seconds, max(peak, own.peak)
        print_row([f"`{shlex.join(words)}`", *cells_of(own), *cells_of(other), f"{ratio:.2f}", f"{wanted:.2f}"])
    return peak


def print_growth(program, ours, folder, out):
    """Prints each command's times on the log repeated."""
    with open(ours, "rb") as source:
        units = source.read()[len(HEADER) :]
    logs = [os.path.join(folder, f"log-{copies}") for copies in COPIES]
    for log, copies in zip(logs, COPIES):
        repeat(log, HEADER, units, copies)
    columns = [[f"{copies}x {what}" for copies in COPIES] for what in ("s", "MiB")]
    print_head(["Command", *columns[0], f"{COPIES[-1]}x / 1x", *columns[1]])
    for _, words in COMMANDS:
        taken = in_turn([[program, *words, "-r", log] for log in logs], out)
        ratio = taken[-1].seconds / taken[0].seconds
        times, peaks = [f"{of.seconds:.3f}" for of in taken], [f"{of.peak:.1f}" for of in taken]
        print_row([f"`{shlex.join(words)}`", *times, f"{ratio:.2f}", *peaks])


def folder_for(size):
    """Where files lie in memory, if so many bytes have room there, and else None, where they lie on a disk."""
    return "/dev/shm" if os.path.isdir("/dev/shm") and shutil.disk_usage("/dev/shm").free > size else None


def bench(program, given):
    missing = [tool for tool in NEEDED if shutil.which(tool) is None]
    if missing:
        sys.exit(f"not on the path: {' '.join(missing)}; apt-get install varnish wrk")
    for stop in (signal.SIGTERM, signal.SIGHUP):
        signal.signal(stop, lambda *_: sys.exit(1))  # so that what was started is stopped
    with tempfile.TemporaryDirectory() as folder:
        if given.logs:
            os.makedirs(given.logs, exist_ok=True)
        ours, theirs = logs_in(given.logs or folder)
        print_facts(program, ours, theirs, compare_raw(program, ours, theirs))
        with tempfile.TemporaryDirectory(dir=folder_for(8 * os.path.getsize(ours))) as written:
            out = os.path.join(written, "out")
            peak = print_beside(program, ours, theirs, out, [*COMMANDS, *FORMS])
            print(f"\nOf the largest of our peaks, {peak:.1f} MiB, at most {MOST_MEBIBYTES} is wanted.")
            print_growth(program, ours, folder, out)
            for what, name, units, commands in MADE:
                pair = made_logs_in(given.logs or folder, name, units)
                print(f"\n{what}: {compare_raw(program, *pair)[0]} records, of which both print the same raw lines")
                print_beside(program, *pair, out, commands)
