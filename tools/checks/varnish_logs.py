"""Runs vslog over logs of Varnish that are cut, changed, and made up, beside tools/reference/varnish_log.py.

The records of what it writes are compared with those of the script, and so are its messages and its status; where a
unit ends may differ with how the input is cut into pieces. A log of each form is of a real server: it is cut at each of
its first bytes, and each of its first bytes is changed; and the script finds in it what the text has that its own
varnishlog printed of it. Others are made up from a seed, in all forms that a record or a line may have, and run with -q
and --strict too; some have the longest parts that there may be. They come by name, from standard input, and in pieces,
and go to standard output, to a file, and behind what a file has. Of a real log that comes in pieces, all that is whole
is written before the next piece comes.
"""

import collections
import concurrent.futures
import contextlib
import fcntl
import io
import os
import random
import struct
import subprocess
import termios
import time

import varnish_log
import vslog
from checks.running import MOST_SECONDS, TOP, Failed, Run, run, same_run, some_lines, temporary_folder

# What the program tells of what it left out and cut, by the names of the script's counts, in this order, each where it
# isn't 0. With -q, and where it stops, it tells nothing of these.
COUNTED = {
    "tags": "vslog: {count} records of tags that vtools doesn't have were left out",
    "cut": "vslog: {count} payloads above 4000 bytes were cut",
    "vxids": "vslog: {count} lines of VXIDs out of range were left out",
    "groupings": "vslog: {count} lines of another grouping than raw were left out",
    "lines": "vslog: {count} lines that are no raw lines were left out",
    "bytes": "vslog: {count} bytes at the end, inside a part, were left out",
}
# What it tells of a file that is no log of the form that is read, by the script's words for what it looks like.
LOOKS = {
    "empty": "vslog: {name}: empty",
    "binary": "vslog: {name}: Varnish's binary log: leave -t out",
    "our log": "vslog: {name}: a log file of vtools: read it with -r",
    "another version": "vslog: {name}: a binary log of another version of Varnish",
    "gzip": "vslog: {name}: packed by gzip: unpack it first",
    "text": "vslog: {name}: a text: use -t",
    "unknown": "vslog: {name}: no log of Varnish",
}
# What it tells under --strict of what would be left out or cut, by the names of the script's counts, and of an end.
LOST = {
    "tags": "vslog: {name}: {place} {at}: a tag that vtools doesn't have",
    "cut": "vslog: {name}: {place} {at}: a payload above 4000 bytes",
    "vxids": "vslog: {name}: {place} {at}: a VXID out of range",
    "groupings": "vslog: {name}: {place} {at}: a line of another grouping than raw",
    "lines": "vslog: {name}: {place} {at}: no raw line",
}
CUT_SHORT = "vslog: {name}: ends inside a part: {left} bytes"
DAMAGED = "vslog: {name}: damaged at {place} {at}"
FAULT_STATUS = 1

# Real logs with their texts; so many of a log's first bytes are cut, and so many are changed.
REALS = {"varnish": (4000, 200), "varnish-7.7": (1000, 100)}
CUTS_BEHIND = 100
CHANGED_WHOLLY = 8  # so many first bytes are changed to all others
OTHER_BYTES = 0x00, 0x01, 0x40, 0xC0, 0xFF
SEED = 7
LIVE_PIECES, MOST_PIECES = 30, 12
LEAST_PIECE = 4096  # bytes of a file that are read at once
AT_ONCE = 2 * (os.cpu_count() or 1)

FIRST_BYTES = [b"", b"V", b"VSL", b"VSL\1", b"VSL3", b"VSLO", b"VSLOG-1\n", b"VSM\0", b"\x1f\x8b\x08\0", b"   1", b"\xff\0\xff"]
LENGTHS = [0, 0, 1, 1, 2, 3, 4, 5, 8, 13, 30, 60, 255, 3999, 4000, 4001, 4002, 9000, 65535]
PAYLOADS = [b"", b"", b" ", b"a b  c ", b"\t\x7f\\x09\xc8", b"\0", b"a\0b", b"\r"]
PAYLOADS += [b"4" * length for length in (3999, 4000, 4001)]
VXIDS = [b"0", b"1", b"2", b"2", b"2", b"3", b"%019d" % 2, b"%020d" % 2, b"4294967296"]
VXIDS += [b"%d" % (vslog.MOST_VXID + more) for more in (0, 1)] + [b"9" * 20]
NAMES = [b"End", b"Begin", b"VCL_Log", b"reqURL", b"H2RxHdr", b"Backend", b"VdpAcct", b"Nope", b"44", b"Req*", b"none"]
LINES = [
    *[b"", b" ", b"   ", b"\t", b"#", b"# 2 End c", b" # 2 End c", b"*   << Request  >> 2     ", b"-   End          "],
    *[b"*", b"-", b"-2 End c", b" - 2 End c", b"2", b"2 ", b"2 End", b"2 End ", b"2 End C", b"2 End cb", b"2\tEnd c"],
    *[b"x", b"End c", b"2 End c\0", b"a word's end", b"12 items - 3", b"12 items, 3", b"\xc3\xa4", b"2 End\r", b"\r"],
]


class Wanted:
    """What the script takes of a log, and what the program is to tell of it. Why it stops lacks the log's name."""

    def __init__(self, log, words):
        is_text, self.is_quiet, is_strict = (word in words for word in ("-t", "-q", "--strict"))
        self.records, self.counts, self.fault = [], collections.Counter(), None
        read, given = (varnish_log.read_text, io.BytesIO(log)) if is_text else (varnish_log.read_binary, log)
        place = "line" if is_text else "byte"
        try:
            self.records.extend(read(given, self.counts, is_strict))
        except varnish_log.NotVarnishs as other:
            self.fault = LOOKS[str(other)].format(name="{name}")
        except vslog.NotRead as damage:
            self.fault = DAMAGED.format(name="{name}", place=place, at=damage.at)
        except varnish_log.Lost as lost:
            self.fault = LOST[lost.what].format(name="{name}", place=place, at=lost.at)
        if is_strict and not self.fault and self.counts["bytes"]:
            self.fault = CUT_SHORT.format(name="{name}", left=self.counts["bytes"])

    def status(self):
        return FAULT_STATUS if self.fault else 0

    def messages(self, name):
        """The messages for a log of this name."""
        texts = [text.format(count=self.counts[what]) for what, text in COUNTED.items() if self.counts[what]]
        texts = [self.fault.format(name=name)] if self.fault else [] if self.is_quiet else texts
        return "".join(f"{text}\n" for text in texts).encode()


def records_of(what, written):
    """The records of a log file, whose units are as they are to be: of VXID 0 one, and an End only as the last."""
    records = []
    try:
        for vxid, mark, unit in vslog.read_units(written):
            if vxid == 0 and len(unit) > 1 or any(tag == "End" for tag, _ in unit[:-1]):
                raise Failed(f"{what}: a unit of VXID {vxid} goes too far: {unit}")
            records += [(vxid, mark, tag, payload) for tag, payload in unit]
    except vslog.NotRead as fault:
        raise Failed(f"{what}: what was written is no log file: {fault}") from None
    return records


def same_records(what, wanted, got):
    """Fails where two lists of records differ, and shows the first that do."""
    if wanted == got:
        return
    at = next((at for at, pair in enumerate(zip(wanted, got)) if pair[0] != pair[1]), min(len(wanted), len(got)))
    ours, theirs = ([repr(record).encode() for record in records[at : at + 2]] for records in (wanted, got))
    lines = some_lines("<", ours) + some_lines(">", theirs)
    raise Failed(f"{what}: records differ from {at} on ('<' is wanted):{lines}")


def compare(what, wanted, written, came, name="-", copies=1):
    """Compares what a run wrote, told and answered with what is wanted of a log of this name."""
    same_run(what, Run(wanted.status(), wanted.messages(name), came.stdout), came)
    same_records(what, copies * wanted.records, records_of(what, written))


def of_input(program, what, log, words):
    """A run over standard input."""
    came = run([program, *words], stdin=log)
    compare(what, Wanted(log, words), came.stdout, came)


def of_file(program, what, log, words, folder):
    """A run over a file, quietly. Units are as long as they can be, but where a piece ends."""
    words = [*words, "-q"]
    (folder / "log").write_bytes(log)
    came, wanted = run([program, *words, "log"], folder), Wanted(log, words)
    compare(what, wanted, came.stdout, came, "log")
    units, ends = len(list(vslog.read_units(came.stdout))), len(log) // LEAST_PIECE + 1
    if units > unit_count(wanted.records) + ends:
        raise Failed(f"{what}: {units} units, where {unit_count(wanted.records)} do")


def unit_count(records):
    """How many units records have at least."""
    pairs = zip([(None, None, None, None), *records], records)
    return sum(vxid == 0 or (vxid, mark) != before[:2] or before[2] == "End" for before, (vxid, mark, _, _) in pairs)


def to_file(program, what, log, words, folder):
    """Two runs that write to one file, the second behind the first."""
    wanted = Wanted(log, words)
    for copies in (1, 2):
        came = run([program, *words, *(["-a"] if copies > 1 else []), "-w", "out"], folder, log)
        compare(what, wanted, (folder / "out").read_bytes(), came, copies=copies)
        if came.stdout:
            raise Failed(f"{what}: -w out writes to standard output, too")


def pieces_of(log, many):
    """A log as so many pieces and one, of any lengths."""
    cuts = sorted(random.Random(len(log)).sample(range(len(log) + 1), min(many, len(log))))
    return [log[begin:end] for begin, end in zip([0, *cuts], [*cuts, len(log)])]


def in_pieces(program, what, log, words, folder):
    """A run over a pipe, into which each piece is put once the one before was taken out."""
    with open(folder / "written", "w+b") as out, open(folder / "told", "w+b") as errors:
        child = subprocess.Popen([program, *words], bufsize=0, stdin=subprocess.PIPE, stdout=out, stderr=errors)
        with contextlib.suppress(BrokenPipeError):  # as of a log that is damaged
            for piece in pieces_of(log, MOST_PIECES):
                child.stdin.write(piece)
                wait_until(what, lambda: is_empty(child.stdin) or child.poll() is not None)
        child.stdin.close()
        status = child.wait(MOST_SECONDS)
    written = (folder / "written").read_bytes()
    compare(what, Wanted(log, words), written, Run(status, (folder / "told").read_bytes(), written))


def live(program, what, log, words):
    """A run over a pipe, in which all that is whole of the pieces is written before the next one comes."""
    with temporary_folder() as folder, open(folder / "written", "w+b") as out:
        child, sent = subprocess.Popen([program, "-q", *words], bufsize=0, stdin=subprocess.PIPE, stdout=out), b""
        for piece in pieces_of(log, LIVE_PIECES):
            child.stdin.write(piece)
            sent += piece
            wanted = Wanted(sent, words).records
            wait_until(what, lambda: len(now_in(folder / "written")) >= len(wanted))
            same_records(f"{what}, of which {len(sent)} bytes came", wanted, now_in(folder / "written"))
        child.stdin.close()
        if child.wait(MOST_SECONDS):
            raise Failed(f"{what}: the status is {child.returncode}")


def now_in(path):
    """The records of the whole units that a log file has so far."""
    records = []
    with contextlib.suppress(vslog.NotRead):
        for vxid, mark, unit in vslog.read_units(path.read_bytes()):
            records += [(vxid, mark, tag, payload) for tag, payload in unit]
    return records


def is_empty(pipe):
    """Whether all was taken out of a pipe."""
    return not struct.unpack("i", fcntl.ioctl(pipe, termios.FIONREAD, bytes(4)))[0]


def wait_until(what, holds):
    """Waits until something holds, or fails."""
    until = time.monotonic() + MOST_SECONDS
    while not holds():
        if time.monotonic() > until:
            raise Failed(f"{what}: nothing has come for {MOST_SECONDS} seconds")
        time.sleep(0.0002)


def records_in(draw, form):
    """Some records of a binary log, with and without a zero byte at the end, and any bytes in the last word."""
    many, vxid, mark, names = draw.randrange(12), 2, 1, form.names
    for _ in range(many):
        if draw.randrange(3) == 0:
            vxid, mark = draw.choice([0, 1, 2, 3, (1 << form.vxid_bits) - 1]), draw.randrange(3)
        named = [names.index(draw.choice([*varnish_log.WITHOUT_TEXT, "End"]))]
        number = draw.choice([draw.randrange(256), draw.randrange(1, len(names)), *named, names.index("End")])
        payload = draw.randbytes(draw.choice(LENGTHS if draw.randrange(20) == 0 else LENGTHS[:13]))
        payload = payload[:-1] + b"\0" if payload and draw.randrange(3) else payload
        filling = draw.randbytes(-len(payload) % 4)
        word, whose = number << 24 | form.version << 16 | len(payload), mark << form.mark_place | vxid
        yield struct.pack(form.words, word, whose) + payload + filling


def binary_log(draw):
    """A binary log, of ten one with other first bytes, of five one that is cut, and of five one with a changed byte."""
    form = draw.choice([*varnish_log.FORMS.values()])
    log = form.file_mark + b"".join(records_in(draw, form))
    if draw.randrange(10) == 0:
        log = draw.choice(FIRST_BYTES) + log[4:] * draw.randrange(2)
    if draw.randrange(5) == 0:
        log = log[: draw.randrange(len(log) + 1)]
    if draw.randrange(5) == 0 and log:
        at = draw.randrange(len(log))
        log = log[:at] + draw.randbytes(1) + log[at + 1 :]
    return log


def line(draw):
    """A line of a text: that of a record, with spaces anywhere, or one of another form."""
    if draw.randrange(4) == 0:
        return draw.choice(LINES)
    spaces = [b" " * draw.randrange(least, 4) for least in (0, 1, 1)]
    parts = [draw.choice(VXIDS), draw.choice(NAMES), draw.choice([b"c", b"c", b"b", b"-", b"x"])]
    payload = draw.choice(PAYLOADS)
    return b"".join(space + part for space, part in zip(spaces, parts)) + (b" " + payload if draw.randrange(5) else b"")


def text_log(draw):
    """A text, of ten one with other first bytes, whose last line may lack its line feed."""
    text = b"".join(line(draw) + draw.choice([b"\n", b"\n", b"\n", b"\r\n"]) for _ in range(draw.randrange(14)))
    if draw.randrange(10) == 0:
        text = draw.choice([*FIRST_BYTES, *varnish_log.FORMS]) + text
    return text[:-1] if draw.randrange(3) == 0 else text


def changed_logs(name, log, cuts, changed):
    """The log's first part with each of some bytes changed."""
    for at in range(changed):
        others = range(256) if at < CHANGED_WHOLLY else (*OTHER_BYTES, log[at] ^ 0x01, log[at] ^ 0x80)
        for byte in {*others} - {log[at]}:
            what = f"the first {cuts} bytes of {name} with {byte} for byte {at}"
            yield what, log[:at] + bytes([byte]) + log[at + 1 : cuts], []


def cut_logs(name, log, cuts):
    """The log cut at each place of its first part, and at some behind."""
    behind = random.Random(SEED).sample(range(cuts, len(log)), CUTS_BEHIND)
    for size in [*range(cuts), *behind]:
        yield f"the first {size} bytes of {name}", log[:size], []


def limit_logs():
    """Texts with a line of about as many bytes as are held, with and without a line feed, and the longest records."""
    for size in range(varnish_log.MOST_HELD - 2, varnish_log.MOST_HELD + 3):
        for end in (b"\n", b"\r\n", b""):
            for line in (b"2 ReqURL c " + b"/" * (size - 11), b" " * size):
                yield f"a text with a line of {size} bytes and {end}", b"1 End c\n" + line + end, ["-t"]
    for form in varnish_log.FORMS.values():
        word = form.names.index("End") << 24 | form.version << 16 | 0xFFFF
        longest = struct.pack(form.words, word, 2) + bytes(65536)
        yield f"five of the longest record behind {form.file_mark}", form.file_mark + 5 * longest, []


def made_up_logs(many):
    """Logs and texts that are made up, by turns with each way to run them."""
    ways = [of_file, to_file, in_pieces]
    for number in range(many):
        for words, make in (([], binary_log), (["-t"], text_log)):
            what = f"{'text' if words else 'binary log'} {number} that is made up"
            yield ways[number % len(ways)], what, make(random.Random(f"{SEED} {number}")), words


def all_words(program, way, what, log, words):
    """Runs of a log over standard input with and without each of -q and --strict, and one in another way."""
    for more in ([], ["-q"], ["--strict"], ["-q", "--strict"]):
        of_input(program, " ".join([what, *more]), log, [*words, *more])
    with temporary_folder() as folder:
        way(program, what, log, words, folder)


def same_text(name, log, text):
    """Fails where the records of a real log aren't those of the text that its own varnishlog printed of it."""
    lines = [varnish_log.varnish_line(*entry[1:]) for entry in varnish_log.read_entries(log, collections.Counter())]
    if b"".join(lines) != text:
        raise Failed(f"the records of {name}.vsl aren't those of {name}.raw")


def check(program, many):
    logs = {name: (TOP / f"examples/{name}.vsl").read_bytes() for name in REALS}
    reals = [(name, log, []) for name, log in logs.items()]
    reals += [(f"the text of {name}", (TOP / f"examples/{name}.raw").read_bytes(), ["-t"]) for name in REALS]
    for name, log in logs.items():
        same_text(name, log, (TOP / f"examples/{name}.raw").read_bytes())
    cut = [row for name, (cuts, _) in REALS.items() for row in cut_logs(name, logs[name], cuts)]
    changed = [row for name, sizes in REALS.items() for row in changed_logs(name, logs[name], *sizes)]
    with concurrent.futures.ThreadPoolExecutor(AT_ONCE) as pool:
        runs = [pool.submit(live, program, *real) for real in reals]
        runs += [pool.submit(all_words, program, of_file, *real) for real in reals]
        runs += [pool.submit(of_input, program, *row) for row in [*cut, *changed]]
        runs += [pool.submit(of_input, program, *limit) for limit in limit_logs()]
        runs += [pool.submit(all_words, program, *made) for made in made_up_logs(many)]
        try:
            for done in runs:
                done.result()
        finally:
            pool.shutdown(cancel_futures=True)
    return f"{len(runs)} logs"
