"""Runs the program where data can't say what is around it: full and closed streams, pipes, large files, little memory."""

import contextlib
import os
import re
import socket
import subprocess
import tempfile
import threading
import time

from vslog import HEADER, read_units, unit
from checks.running import MOST_SECONDS, TOP, Failed, Run, run, same_run, same_text, temporary_folder
from checks.streams import BUSY, CLOSED, FULL, GONE, NOTHING, limited, opened

LOG, LINES, TRANSACTIONS = (TOP / f"examples/real-1.{kind}" for kind in ("vslog", "raw", "vxid"))
ONE = TOP / "crates/vtools/data/f"
# Cases whose data are fed or read here, or whose output is wanted.
LONG = TOP / "cases/lines/a_payload_of_4000_bytes_is_printed/data/f"
TWO = TOP / "cases/written/a_log_is_written_to_standard_output/data/f"
ACCESS = TOP / "cases/real_traffic/real_traffic_has_access_lines/stdout"
OVERRUNS = TOP / "cases/overruns"

TEXT = "         0 CLI            - Rd ping\n"
COUNTED = "         1 CLI            Rd ping\n"
LINE = '- - - - "- http://localhost HTTP/1.0" - - "-" "-"\n'
COUNTER = "MAIN.shm_writes                           1 SHM writes\n"
MADE = "         1 Hit            1\n"
OVERRUN = "vtools: log overrun at segment 0, counter 13\nvtools: missed 8 units\n"
OVERRUN_LINE = rb"vtools: (log overrun at segment [0-9]+, counter [0-9]+|missed [0-9]+ units)\n"
UNWRITTEN = "vtools: -: write failed\n"
NO_MEMORY = "vtools: out of memory\n"
MOST_BYTES = 16777216  # of a feed
PIECE = 65536  # bytes that are read at once, and of text that is held at most, but for that of one unit
LITTLE = 30000  # KiB of address space
KEYS, IN_A_UNIT = 300_000, 1000  # different texts of a report, and how many of them come together


class Edges:
    """The program, the folder where it runs, and how many runs were as they should be."""

    def __init__(self, program, folder):
        self.program, self.folder, self.count = program, folder, 0

    def write(self, name, *parts):
        with open(self.folder / name, "wb") as file:
            file.writelines(parts)

    def is_file(self, what, name, content):
        """Fails where a file has other bytes, and takes it away."""
        same_text(f"{what}: {name}", content, (self.folder / name).read_bytes())
        (self.folder / name).unlink()

    def start(self, words, streams, memory=None):
        """Starts the program on words, with three streams: each a file, a pipe's end, or one of the words for them."""
        with contextlib.ExitStack() as stack:
            ours = [stack.enter_context(opened(one)) if isinstance(one, str) else one for one in streams]
            given = dict(zip(["stdin", "stdout", "stderr"], ours))
            before = limited(streams, memory)
            return subprocess.Popen(words_of(self.program, words), cwd=self.folder, preexec_fn=before, **given)

    def ended(self, what, child, wanted, out, errors):
        """Waits until the program ends, and compares what came out; of a stream that is no file nothing came."""
        try:
            status = child.wait(MOST_SECONDS)
        except subprocess.TimeoutExpired:
            child.kill()
            raise Failed(f"{what}: it hasn't ended after {MOST_SECONDS} seconds") from None
        same_run(what, wanted, Run(status, *(bytes_of(file) for file in (errors, out))))
        self.count += 1

    def run(self, what, words, status=0, stderr="", stdout="", stdin=NOTHING, out=None, errors=None, memory=None):
        """Runs the program on words, and compares what comes out, but on streams that are given."""
        with tempfile.TemporaryFile() as out_file, tempfile.TemporaryFile() as errors_file:
            given = [stdin, out or out_file, errors or errors_file]
            child = self.start(words, given, memory)
            self.ended(what, child, Run(status, as_bytes(stderr), as_bytes(stdout)), out_file, errors_file)

    def unwritten(self, words):
        """Runs it where standard output is a pipe whose reader has gone or that is full, a full device, or closed."""
        for out in GONE, BUSY, FULL, CLOSED:
            self.run(f"standard output {out}: {words}", words, 1, UNWRITTEN, out=out)

    def unheard(self, what, status, stdout, words):
        """Runs it where standard error is full, or closed: the status and the output stay."""
        for errors in FULL, CLOSED:
            self.run(f"standard error {errors}: {what}", words, status, stdout=stdout, errors=errors)

    def without_streams(self, what, status, words):
        self.run(f"no stream: {what}", words, status, stdin=CLOSED, out=CLOSED, errors=CLOSED)

    def fed(self, what, words, pieces, status=0, stderr="", stdout=""):
        """Runs it while the file `pipe`, a named pipe, gets bytes in pieces."""
        writer = threading.Thread(target=write_pieces, args=(self.folder / "pipe", pieces))
        writer.start()
        self.run(what, words, status, stderr, stdout)
        writer.join()


def words_of(program, words):
    return [program, *(words.split() if isinstance(words, str) else words)]


def bytes_of(file):
    file.seek(0)
    return file.read()


def as_bytes(text):
    return text if isinstance(text, bytes) else text.encode()


def write_pieces(path, pieces):
    with open(path, "wb", buffering=0) as pipe:
        for piece in pieces:
            pipe.write(piece)
            time.sleep(0.2)


def outputs(edges):
    """Standard output takes nothing. A run that writes nothing doesn't see it."""
    for words in (f"varnishlog -r {LOG}", "varnishlog -g raw -r one.log", f"varnishncsa -r {LOG}",
                  f"varnishtop -1 -r {LOG}", "varnishstat -l", "--help", "varnishlog --help", "--version"):
        edges.unwritten(words)
    for out in FULL, CLOSED:
        edges.run(f"standard output {out} and nothing to write", "varnishlog -r header.log", out=out)
    edges.run("a full output and no line", "varnishncsa -bE -r one.log", out=FULL)
    edges.run("a full output and nothing to count", "varnishtop -1 -r one.log", out=FULL)
    damaged = "vtools: cut.log: damaged at 8\n"
    edges.run("a full output and no report", "varnishtop -1 -g raw -r cut.log", 1, damaged, out=FULL)
    edges.run("a full output and no counter to list", "varnishstat -l -f none", out=FULL)


def errors(edges):
    """Standard error takes nothing."""
    for what, status, stdout, words in (
        ("a whole log", 0, TEXT, "varnishlog -g raw -r one.log"),
        ("a cut log", 1, "", "varnishlog -g raw -r cut.log"),
        ("an access line", 0, LINE, f"varnishncsa -r {TWO}"),
        ("a report", 0, COUNTED, "varnishtop -1 -g raw -r one.log"),
        ("no report", 1, "", "varnishtop -1 -g raw -r cut.log"),
        ("a missing file", 1, "", "varnishlog -g raw -r missing"),
        ("a feed that is no listing", 1, "", "--feed one.log varnishlog"),
        ("a format that is refused", 2, "", "varnishncsa -F %Z -r one.log"),
        ("words that are refused", 2, "", "varnishlog -g raw -r one.log -k0"),
        ("a word that is not UTF-8", 2, "", [b"\xff"]),
    ):
        edges.unheard(what, status, stdout, words)
    same_text("closed errors: cut.log", ONE.read_bytes()[:-1], (edges.folder / "cut.log").read_bytes())


def no_streams(edges):
    """No stream is open, and the log takes the number of one."""
    edges.without_streams("a log", 1, "varnishlog -g raw -r one.log")
    edges.without_streams("nothing to write", 0, "varnishlog -r header.log")
    edges.without_streams("--help", 1, "--help")
    edges.without_streams("a feed that is no listing", 1, "--feed one.log varnishlog")
    edges.without_streams("a format that is refused", 2, "varnishncsa -F %Z -r one.log")
    edges.run("no input", "varnishlog -g raw -r one.log", stdout=TEXT, stdin=CLOSED)
    same_text("no stream: one.log", ONE.read_bytes(), (edges.folder / "one.log").read_bytes())


def pipes(edges):
    """FILE is a pipe, which comes in two pieces, and is opened for no words that are refused."""
    one = ONE.read_bytes()
    edges.fed("FILE a pipe", "varnishlog -g raw -r pipe", [one[:10], one[10:]], stdout=TEXT)
    for what, words, message in (
        ("a query that is refused opens no feed", "--feed pipe varnishlog -q %", "query 0: syntax at 0"),
        ("a format that is refused opens no pipe", "varnishncsa -F %Z -r pipe", "format: syntax at 0"),
        ("words that are refused open no pipe", "varnishlog -g raw -r pipe -k0", "bad value: -k0"),
    ):
        edges.run(what, words, 2, f"vtools: {message}\n")
    with open(ONE, "rb") as file:
        edges.run("FILE the standard input by its path", "varnishlog -g raw -r /dev/stdin", stdout=TEXT, stdin=file)
    # the first line comes before the input has ended, and so does the first access line
    two = TWO.read_bytes()
    damaged = Run(1, b"vtools: -: damaged at 28\n", TEXT.encode())
    goes_on(edges, "inside a unit", "varnishlog -g raw -r -", one, one[8:17], damaged)
    goes_on(edges, "for access lines", "varnishncsa -b -r -", two[:50], two[50:], Run(0, b"", LINE.encode()))


def goes_on(edges, what, words, first, then, wanted):
    """Runs it over a pipe of which a first part makes the line come before the other part does."""
    what = f"a pipe that goes on, {what}"
    with tempfile.TemporaryFile() as out, tempfile.TemporaryFile() as errors_file:
        reading, writing = os.pipe()
        child = edges.start(words, [reading, out, errors_file])
        os.close(reading)
        os.write(writing, first)
        until = time.monotonic() + MOST_SECONDS
        while not os.fstat(out.fileno()).st_size and time.monotonic() < until:
            time.sleep(0.02)
        same_text(f"{what}: what came before the end", wanted.stdout, bytes_of(out))
        os.write(writing, then)
        os.close(writing)
        edges.ended(what, child, wanted, out, errors_file)


def together(edges):
    """What is due of units that are at hand is written together: a socket that keeps writes apart takes few."""
    what, lines, writes = "units at hand", LINES.read_bytes(), []
    reading, writing = socket.socketpair(socket.AF_UNIX, socket.SOCK_SEQPACKET)
    with reading, tempfile.TemporaryFile() as nothing, tempfile.TemporaryFile() as errors_file:
        child = edges.start(f"varnishlog -g raw -r {LOG}", [NOTHING, writing, errors_file])
        writing.close()
        while piece := reading.recv(2 * PIECE):
            writes.append(piece)
        edges.ended(what, child, Run(0, b"", b""), nothing, errors_file)
    same_text(what, lines, b"".join(writes))
    most = len(LOG.read_bytes()) // PIECE + len(lines) // PIECE + 2
    if len(writes) > most:
        raise Failed(f"{what}: {len(writes)} writes, where {most} do")


def large(edges):
    """FILE has more than 16 MiB: the units of the real log a hundred times. Zero bytes are no unit."""
    log, lines = LOG.read_bytes(), LINES.read_bytes() * 100
    edges.write("large.log", log[: len(HEADER)], log[len(HEADER) :] * 100)
    edges.run("a large log", "varnishlog -g raw -r large.log", stdout=lines)
    edges.run("a large log to a file", "varnishlog -g raw -w large -r large.log")
    edges.run("a large log, read back", "varnishlog -g raw -r large", stdout=lines)
    edges.write("zeros.log", ONE.read_bytes().ljust(16777217, b"\0"))
    edges.run("zeros behind a log", "varnishlog -g raw -r zeros.log", 1, "vtools: zeros.log: damaged at 28\n", TEXT)
    edges.run("a file without end", "varnishlog -g raw -r /dev/zero", 1, "vtools: /dev/zero: not a log at 0\n")
    for name in "large.log", "large", "zeros.log":
        (edges.folder / name).unlink()


def written(edges):
    """What is written is full, or a folder."""
    full = "vtools: /dev/full: write failed\n"
    edges.run("a full file", "varnishlog -g raw -w /dev/full -r one.log", 1, full)
    edges.run("a full file for access lines", f"varnishncsa -w /dev/full -r {LOG}", 1, full)
    edges.run("a full file that is appended to", "varnishlog -a -g raw -w /dev/full -r one.log", 1, full)
    edges.run("a device that is appended to", "varnishlog -a -g raw -w /dev/null -r one.log")
    edges.run("a full file and nothing to write", "varnishlog -A -g raw -w /dev/full -r header.log")
    edges.run("a folder that is to be written", "varnishlog -w . -r one.log", 1, "vtools: .: cannot open\n")


def appended(edges):
    """A pipe that is appended to has no bytes, so it isn't looked at, and gets a header."""
    what, pipe = "a pipe that is appended to", os.open(edges.folder / "pipe", os.O_RDONLY | os.O_NONBLOCK)
    edges.run(what, "varnishlog -a -g raw -w pipe -r one.log")
    same_text(what, HEADER + b"".join(unit(*each) for each in read_units(ONE.read_bytes())), os.read(pipe, 65536))
    os.close(pipe)


def left_alone(edges):
    """The reader of a pipe that is written takes the header and goes: the first unit can't be written."""
    what, header, until = "a pipe that is written, whose reader goes", b"", time.monotonic() + MOST_SECONDS
    pipe = os.open(edges.folder / "pipe", os.O_RDONLY | os.O_NONBLOCK)
    with tempfile.TemporaryFile() as out, tempfile.TemporaryFile() as errors_file:
        reading, writing = os.pipe()
        child = edges.start("varnishlog -g raw -w pipe -r -", [reading, out, errors_file])
        os.close(reading)
        while header != HEADER and time.monotonic() < until:
            time.sleep(0.02)
            with contextlib.suppress(BlockingIOError):
                header += os.read(pipe, len(HEADER))
        os.close(pipe)
        same_text(f"{what}: what came before", HEADER, header)
        os.write(writing, ONE.read_bytes())
        os.close(writing)
        edges.ended(what, child, Run(1, b"vtools: pipe: write failed\n", b""), out, errors_file)


def wide(edges):
    """A transaction of 128 records of 4,000 bytes is written as units of 65 records and of 63 with the flush."""
    ((vxid, mark, (record,)),) = read_units(LONG.read_bytes())
    edges.write("wide.log", HEADER, unit(vxid, mark, [record]) * 128)
    edges.run("a wide transaction", "varnishlog -w wide -r wide.log")
    added = [("VSL", b"flush"), ("End", b"synth")]
    units = unit(vxid, mark, [record] * 65) + unit(vxid, mark, [record] * 63 + added)
    edges.is_file("a wide transaction", "wide", HEADER + units)


def keys(edges):
    """Of 300,000 different texts some come twice: these are first, and then the others by their bytes."""
    texts = [b"/%d" % (at * 7919 % KEYS) for at in range(KEYS)]
    twice = set(texts[::IN_A_UNIT])
    units = [texts[at : at + IN_A_UNIT] for at in range(0, KEYS, IN_A_UNIT)]
    edges.write("keys.log", HEADER, *(unit(0, "-", [("ReqURL", text) for text in part]) for part in [*units, twice]))
    ordered = [(2, text) for text in sorted(twice)] + [(1, text) for text in sorted(set(texts) - twice)]
    report = b"".join(b"%10d ReqURL         %s\n" % counted for counted in ordered)
    edges.run("a report of 300,000 texts", "varnishtop -1 -g raw -r keys.log", stdout=report)
    (edges.folder / "keys.log").unlink()


def memory(edges):
    """A transaction of 16 MB stays open: an address space of 30 MB has no room for it, but to count its records."""
    ((vxid, mark, (record,)),) = read_units(LONG.read_bytes())
    edges.write("open.log", HEADER, unit(vxid, mark, [record]) * 4096)
    edges.run("no memory", "varnishlog -r open.log", 3, NO_MEMORY, memory=LITTLE)
    line, text = f"-   VCL_Log        {'a' * 4000}\n", record[1].decode()
    head, flushed = f"*   << Unknown  >> {vxid:<10}\n", "-   VSL            flush\n-   End            synth\n\n"
    edges.run("memory for 16 MB", "varnishlog -r open.log", stdout=head + line * 4096 + flushed)
    # they are equal, so there is memory to count them
    counted = f"      4096 VCL_Log        {text}\n"
    edges.run("memory for equal records", "varnishtop -1 -g raw -r open.log", stdout=counted, memory=LITTLE)
    (edges.folder / "open.log").unlink()


def cut(edges):
    """The real log is cut in its last unit, which has one record, of no transaction.

    Of it there is no report, but of its 228 transactions, which are complete before the cut, the one of the whole log.
    """
    edges.write("real.log", LOG.read_bytes()[:-4])
    damaged = "vtools: real.log: damaged at 181044\n"
    lines = b"".join(LINES.read_bytes().splitlines(keepends=True)[:-1])
    edges.run("real traffic, cut", "varnishlog -g raw -r real.log", 1, damaged, lines)
    edges.run("real traffic, cut, by transaction", "varnishlog -r real.log", 1, damaged, TRANSACTIONS.read_bytes())
    edges.run("real traffic, cut, its access lines", "varnishncsa -r real.log", 1, damaged, ACCESS.read_bytes())
    edges.run("real traffic, cut, counted", "varnishtop -1 -r real.log", 1, damaged)
    whole = run([edges.program, "varnishtop", "-1", "-r", LOG])
    if not whole.stdout:
        raise Failed("real traffic, counted: there is no report")
    same_run("real traffic, counted", Run(0, b"", whole.stdout), whole)
    edges.count += 1
    edges.run("real traffic, cut, its transactions counted", "varnishtop -1 -k 228 -r real.log", stdout=whole.stdout)


def overrun_of(name):
    """The feed of a case of overruns."""
    return OVERRUNS / name / "data/a"


# Feeds of twelve units of a segment, which overrun a reader that comes after them, and others that overrun one.
OVER = overrun_of("a_reader_that_comes_after_the_feeds_is_overrun")
TWO_TAKEN = overrun_of("a_reader_that_took_two_units_is_overrun_in_the_third_segment")
THREE_TIMES = overrun_of("a_reader_is_overrun_three_times_in_a_run")
PENDING = overrun_of("an_overrun_flushes_a_pending_transaction")
WAITING = overrun_of("an_overrun_flushes_the_oldest_transaction_first")
COMPLETED = overrun_of("after_the_groups_that_are_taken_no_overrun_is_told")
REQUESTS = TOP / "cases/ncsa/ncsa_prints_a_request_that_an_overrun_flushed/data/a"
AFTER_OVER = f"--feed {OVER} --ring 64 --feed-first"


def group(vxid):
    return f"*   << Request  >> {vxid:<10}\n-   Begin          req 1 rxreq\n-   End            \n\n"


def overruns(edges):
    """Standard error takes nothing, and the message of an overrun is due: the run ends.

    What was printed stays, and what is pending is not flushed.
    """
    lines = OVER.read_text().splitlines(keepends=True)
    edges.run("an overrun", f"{AFTER_OVER} varnishlog -g raw", 0, OVERRUN, "".join(lines[-4:]))
    taken = "".join(TWO_TAKEN.read_text().splitlines(keepends=True)[:2])
    small = "--ring 64"
    for what, status, stdout, words in (
        ("an overrun before all units", 1, "", f"{AFTER_OVER} varnishlog -g raw"),
        ("an overrun behind two units", 1, taken, f"--turns 34 --feed {TWO_TAKEN} {small} varnishlog -g raw"),
        ("an overrun of a pending transaction", 1, "", f"--turns 0 --feed {PENDING} {small} varnishlog"),
        ("an overrun behind a group", 1, group(6), f"--turns 1 --feed {WAITING} {small} varnishlog"),
        ("an overrun that completes the last group that is taken", 1, "",
         f"--turns 0 --feed {PENDING} {small} varnishlog -k 1"),
        ("an overrun that nothing is taken of", 1, "", f"--turns 0 --feed {PENDING} {small} varnishlog -q ReqURL"),
        ("an overrun behind an access line", 1, "2 - /one\n",
         [*f"--turns 0 --feed {REQUESTS} {small} varnishncsa -F".split(), "%{Varnish:vxid}x %s %U"]),
        ("an overrun and no report", 1, "", f"{AFTER_OVER} varnishtop -1 -g raw"),
        ("no overrun before the last group that is taken", 0, group(2),
         f"--turns 1 --feed {COMPLETED} {small} varnishlog -k 1"),
    ):
        edges.unheard(what, status, stdout, words)
    edges.run("full errors: a log that is written", f"{AFTER_OVER} varnishlog -g raw -w written", 1, errors=FULL)
    edges.is_file("full errors: a log that is written is the header alone", "written", HEADER)
    edges.run("full errors and a full output", f"{AFTER_OVER} varnishlog -g raw", 1, out=FULL, errors=FULL)
    # an overrun is told before a write that fails, and none behind it
    edges.run("a full output behind an overrun", f"{AFTER_OVER} varnishlog -g raw", 1, OVERRUN + UNWRITTEN, out=FULL)
    many = f"--turns 7 --feed {THREE_TIMES} {small} varnishlog -g raw"
    edges.run("a full output before overruns", many, 1, UNWRITTEN, out=FULL)
    edges.run("a full file before overruns", f"{many} -w /dev/full", 1, "vtools: /dev/full: write failed\n")


def feed_errors(edges):
    """The message of another fault may be lost: the status and the output stay."""
    writes = "-f MAIN.shm_w*"
    for what, status, stdout, words in (
        ("a feed", 0, TEXT, "--feed one.lines --feed-first varnishlog -g raw"),
        ("a bad line", 1, "", "--feed bad.lines --feed-first varnishlog -g raw"),
        ("a missing feed", 1, "", "--feed one.lines --feed missing --turns 7 varnishlog -g raw"),
        ("a folder as a feed", 1, "", "--feed . --feed-first varnishtop -1"),
        ("a feed and a log", 2, "", "--feed one.lines --feed-first varnishlog -r one.log"),
        ("a refused query before a feed", 2, "", "--feed one.lines --feed-first varnishlog -q %"),
        ("a counter", 0, COUNTER, f"--feed one.lines --feed-first varnishstat -1 {writes}"),
        ("counters of a missing feed", 1, "", "--feed missing --feed-first varnishstat -l"),
        ("a made up request", 0, MADE, "--gen 1,7 --turns 7 varnishtop -1 -i Hit"),
        ("a counter of what would overrun a reader", 0, COUNTER.replace("  1", " 12"),
         f"{AFTER_OVER} varnishstat -1 {writes}"),
        ("a feed on threads", 0, TEXT, "--feed one.lines varnishlog -g raw"),
        ("a counter of a feed on threads", 0, COUNTER, f"--feed one.lines varnishstat -1 {writes}"),
    ):
        edges.unheard(what, status, stdout, words)


def feed_outputs(edges):
    """Standard output takes nothing. A run that writes nothing doesn't see it."""
    for words in (
        "--feed one.lines --feed-first varnishlog -g raw", "--feed one.lines --turns 7 varnishlog -g raw -w -",
        "--feed no.lines --feed-first varnishlog -w -", f"--feed {LINES} --turns 7 varnishlog",
        f"--feed {LINES} --feed-first varnishncsa", "--feed one.lines --turns 7 varnishtop -1 -g raw",
        "--gen 4,7 --turns 7 varnishlog", "--gen 4,7 --feed-first varnishncsa",
        "--feed one.lines --turns 7 varnishstat -1", "--gen 4,7 --feed-first varnishstat -j -f none",
        "--feed no.lines --feed-first varnishstat -l",
        # on threads
        "--feed one.lines varnishlog -g raw", f"--feed {LINES} varnishlog", f"--feed {LINES} varnishncsa",
        "--feed one.lines --feed one.lines varnishtop -1 -g raw", "--gen 4,7 varnishlog -w -",
        "--gen 4,7 varnishstat -1",
    ):
        edges.unwritten(words)
    bad = "vtools: feed 0: bad line 1\n"
    for what, status, stderr, words in (
        ("a feed of no units", 0, "", "--feed no.lines --feed-first varnishlog"),
        ("a feed of no transaction", 0, "", "--feed one.lines --turns 7 varnishlog"),
        ("a bad line", 1, bad, "--feed bad.lines --turns 7 varnishlog -w -"),
        ("no counter", 0, "", "--gen 4,7 --feed-first varnishstat -1 -f none"),
        ("counters of a bad line", 1, bad, "--feed bad.lines --feed-first varnishstat -l"),
    ):
        edges.run(f"a full output and {what}", words, status, stderr, out=FULL)


def no_streams_for_feeds(edges):
    """No stream is open, and feeds take the numbers of all three."""
    one = "--feed one.lines"
    for what, status, words in (
        ("a feed", 1, f"{one} --feed-first varnishlog -g raw"),
        ("three feeds", 1, f"{one} {one} {one} --feed-first varnishlog -g raw"),
        ("three feeds and an overrun", 1, f"{one} {one} {AFTER_OVER} varnishlog -g raw"),
        ("a feed of no units", 0, "--feed no.lines --feed-first varnishlog"),
        ("counters", 1, "--gen 4,7 --feed-first varnishstat -j"),
        ("no counter", 0, f"{one} --feed-first varnishstat -1 -f none"),
        ("a feed on threads", 1, f"{one} varnishlog -g raw"),
    ):
        edges.without_streams(what, status, words)
    edges.run("no input and a feed", f"{one} --feed-first varnishlog -g raw", stdout=TEXT, stdin=CLOSED)
    made = "--gen 1,7 --feed-first varnishtop -1 -i Hit"
    edges.run("no input and a made up request", made, stdout=MADE, stdin=CLOSED)
    same_text("no stream: one.lines", TEXT.encode(), (edges.folder / "one.lines").read_bytes())


def feed_pipes(edges):
    """A feed is a pipe, which comes in two pieces, standard input by its path, or a device; none is opened in vain."""
    text = TEXT.encode()
    words = "--feed one.lines --feed pipe --feed-first varnishlog -g raw"
    edges.fed("a feed that is a pipe", words, [text[:10], text[10:]], stdout=TEXT + TEXT)
    with open(edges.folder / "one.lines", "rb") as file:
        words = "--feed /dev/stdin --turns 7 varnishlog -g raw"
        edges.run("a feed that is standard input by its path", words, stdout=TEXT, stdin=file)
    edges.run("a feed that is no file and has no bytes", "--feed /dev/null --feed-first varnishlog -g raw")
    for what, status, message, words in (
        ("a feed without end", 1, f"/dev/zero: larger than {MOST_BYTES} bytes", "/dev/zero --feed-first varnishlog"),
        ("a query that is refused opens no feed", 2, "query 0: syntax at 0", "pipe --feed-first varnishlog -q %"),
        ("a format that is refused opens no feed", 2, "format: syntax at 0", "pipe --turns 7 varnishncsa -F %Z"),
        ("a pattern that is refused opens no feed", 2, "pattern refused: (", "pipe --feed-first varnishlog -X ("),
        ("a bad feed opens no other", 1, "feed 0: bad line 1", "bad.lines --feed pipe --feed-first varnishlog"),
        ("a missing feed opens no other", 1, "missing: cannot open", "missing --feed pipe --feed-first varnishlog"),
    ):
        edges.run(what, f"--feed {words}", status, f"vtools: {message}\n")


def large_feeds(edges):
    """A feed may have 16 MiB: the line, and then empty lines. With one byte more it is too large."""
    padded = TEXT.encode().ljust(MOST_BYTES, b"\n")
    too_large = f"vtools: large.lines: larger than {MOST_BYTES} bytes\n"
    edges.write("large.lines", padded)
    edges.run("a feed of 16 MiB", "--feed large.lines --feed-first varnishlog -g raw", stdout=TEXT)
    bad = "--feed large.lines --turns 7 --feed bad.lines varnishlog -g raw"
    edges.run("a feed of 16 MiB and a bad one", bad, 1, "vtools: feed 1: bad line 1\n")
    edges.write("large.lines", padded, b"\n")
    edges.run("a feed of more than 16 MiB", "--feed large.lines --feed-first varnishlog -g raw -w new", 1, too_large)
    if (edges.folder / "new").exists():
        raise Failed("a feed of more than 16 MiB: the file that is written is there")
    second = "--feed one.lines --feed large.lines --feed missing --turns 7 varnishlog"
    edges.run("a second feed of more than 16 MiB", second, 1, too_large)
    behind = "--feed bad.lines --feed large.lines --feed-first varnishlog"
    edges.run("a bad feed and one of more than 16 MiB", behind, 1, "vtools: feed 0: bad line 1\n")
    edges.write("large.lines", b"x\n".ljust(MOST_BYTES + 1, b"\n"))
    edges.run("a bad feed of more than 16 MiB", "--feed large.lines --feed-first varnishlog", 1, too_large)
    # the lines of the real log, 54 times, have not quite 16 MiB, and the largest ring has room for them
    lines = LINES.read_bytes() * 54
    edges.write("large.lines", lines)
    for order in "--feed-first ", "--turns 7 ", "":
        words = f"--feed large.lines --ring 1048576 {order}varnishlog -g raw"
        edges.run(f"a feed of 16 MiB of lines, {order or 'on threads'}", words, stdout=lines)


def feed_memory(edges):
    """With little address space there is no memory for the largest ring, nor for such a feed, nor for a thread."""
    for what, words in (
        ("a ring", "--feed one.lines --ring 1048576 --feed-first varnishlog -g raw"),
        ("a feed", "--feed large.lines --feed-first varnishlog -g raw"),
        ("made up requests", "--gen 100000,7 --feed-first varnishstat -1"),
        ("a ring that threads share", "--feed one.lines --ring 1048576 varnishlog -g raw"),
    ):
        edges.run(f"no memory for {what}", words, 3, NO_MEMORY, memory=LITTLE)
    for order in "--feed-first ", "":
        words = f"--feed one.lines --ring 1048576 {order}varnishlog -g raw"
        edges.run(f"memory for a ring, {order or 'on threads'}", words, stdout=TEXT)
    # the workers run before the reader, which looks a while for them
    words = "--feed one.lines --feed one.lines --ring 64 varnishlog -g raw"
    edges.run("no memory for a thread", words, stdout=TEXT + TEXT, memory=8000)


def feeds_written(edges):
    """What is written of feeds is full, or a folder."""
    full = "vtools: /dev/full: write failed\n"
    for what, status, stderr, words in (
        ("a full file for a feed", 1, full, "--feed one.lines --feed-first varnishlog -g raw -w /dev/full"),
        ("a full file for a feed's lines", 1, full, "--feed one.lines --turns 7 varnishlog -A -g raw -w /dev/full"),
        ("a full file and a feed of no units", 0, "", "--feed no.lines --turns 7 varnishlog -A -w /dev/full"),
        ("a folder that is to be written, and a feed", 1, "vtools: .: cannot open\n",
         "--feed one.lines --feed-first varnishlog -w ."),
        ("a full file for made up requests", 1, full, "--gen 4,7 --feed-first varnishlog -w /dev/full"),
        ("a full file for a feed on threads", 1, full, "--feed one.lines varnishlog -g raw -w /dev/full"),
    ):
        edges.run(what, words, status, stderr)


def cut_short(edges):
    """The reader of the output goes in mid-run, behind a line. Overruns and what they cost may be told before, and nothing else."""
    for first, words in (
        (rb" +[0-9]+ Begin          [bc] .*\n", "--gen 100000,1 varnishlog -g raw"),
        (rb"[*]   << (BeReq  |Request|Session|Unknown)  >> [0-9]+ +\n", "--gen 100000,1 --ring 64 varnishlog"),
        (rb"10[.]0[.]0[.]7 .*\n", "--gen 100000,1 varnishncsa"),
    ):
        what = f"a pipe that is closed in mid-run: {words}"
        with tempfile.TemporaryFile() as errors_file, tempfile.TemporaryFile() as nothing:
            reading, writing = os.pipe()
            child = edges.start(words, [NOTHING, writing, errors_file])
            os.close(writing)
            with open(reading, "rb", buffering=0) as pipe:
                line = pipe.readline()
            if not re.fullmatch(first, line):
                child.kill()
                raise Failed(f"{what}: the first line is not as it should be: {line}")
            child.wait(MOST_SECONDS)
            told = re.sub(OVERRUN_LINE, b"", bytes_of(errors_file))
            same_run(what, Run(1, UNWRITTEN.encode(), b""), Run(child.returncode, told, b""))
            edges.count += 1


CHECKS = [outputs, errors, no_streams, pipes, together, large, written, appended, left_alone, wide, keys, memory, cut,
          overruns, feed_errors, feed_outputs, no_streams_for_feeds, feed_pipes, large_feeds, feed_memory,
          feeds_written, cut_short]


def check(program):
    for file in (LOG, LINES, TRANSACTIONS, ONE, LONG, TWO, ACCESS, OVER, TWO_TAKEN, THREE_TIMES, PENDING, WAITING,
                 COMPLETED, REQUESTS):
        if not file.is_file():
            raise Failed(f"{file.relative_to(TOP)} is missing")
    with temporary_folder() as folder:
        edges = Edges(program, folder)
        for name, content in (("one.log", ONE.read_bytes()), ("cut.log", ONE.read_bytes()[:-1]), ("header.log", HEADER),
                              ("one.lines", TEXT.encode()), ("bad.lines", b"x\n"), ("no.lines", b"")):
            edges.write(name, content)
        os.mkfifo(folder / "pipe")
        for of in CHECKS:
            of(edges)
    return f"{edges.count} runs"
