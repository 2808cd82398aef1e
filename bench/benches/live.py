"""Copies the log of a running varnishd by vslog, as it comes, and shows what came of it, how soon, and what was lost.

varnishd runs over a small backend, both on 127.0.0.1, and clients send it requests of every kind at a modest rate. Four
pipes begin with Varnish's own varnishlog and end with vtools, and vslog stands in the middle of each. In three are the
records as they come: as a binary log and as a text, for raw lines, and for groups by request. In one are transactions
that have ended, for access lines. After a third of the time the child of varnishd is stopped and started again, and
after two thirds varnishd itself. Clients wait meanwhile until each varnishlog has the log again, because no reader is
shown what is logged before. `tee` keeps what goes into vslog and what comes out, and at the end both are read by
independent scripts and by Varnish's own tools, and compared.
"""

import contextlib
import hashlib
import os
import re
import shutil
import signal
import subprocess
import sys
import tempfile
import threading
import time

from benches.live_compare import Came, compare_all
from benches.live_traffic import LiveBackend, Traffic
from servers import backend, free_port, message_of, probe, refusing_port, started, varnishd_words, wait_until

HERE = os.path.dirname(os.path.abspath(__file__))
NEEDED = ["varnishd", "varnishadm", "varnishlog", "varnishncsa", "tee", "curl"]
SAMPLE = 10  # seconds between two looks at the memory of vslog
STILL, FEW_LINES = 2, 50  # all has come through when in so many seconds few lines come: pings are logged always
MOST_LATE = 1  # second from a request's end to its line
# The default of %b, and no %D, which differ, and at the end of the line when the request ended.
FORMAT = '%h %l %u %t "%r" %s %b "%{Referer}i" "%{User-agent}i" %{VSL:Timestamp:Resp[1]}x'
TAGS = "Debug ExpKill Hash VfpAcct VdpAcct H2RxHdr H2RxBody H2TxHdr H2TxBody".split()  # that aren't logged by default
PARAMETERS = {
    "feature": "+http2",
    "vsl_mask": ",".join(f"+{tag}" for tag in TAGS),
    # payloads above 4,000 bytes
    "vsl_reclen": "12k",
    "vsl_buffer": "32k",
    "workspace_client": "256k",
    "workspace_backend": "256k",
}
# Of each pipe how varnishlog prints, the options of vslog, the tool, and what a line has of a request that has ended.
PIPES = {
    "raw": (["-g", "raw", "-w", "-"], [], ["varnishlog", "-g", "raw"], rb" Timestamp      c Resp: ([0-9.]+) "),
    "text": (["-g", "raw"], ["-t"], ["varnishlog", "-g", "raw"], rb" Timestamp      c Resp: ([0-9.]+) "),
    "lines": (["-w", "-"], [], ["varnishncsa", "-F", FORMAT], rb" ([0-9.]+)$"),
    "groups": (["-g", "raw", "-w", "-"], [], ["varnishlog", "-g", "request"], rb"^-   Timestamp      Resp: ([0-9.]+) "),
}


class Varnish:
    """varnishd in a folder, that can be stopped and started again."""

    def __init__(self, folder, ports):
        self.folder, self.errors = folder, os.path.join(folder, "varnishd")
        self.port, self.proxy_port = free_port(), free_port()
        self.instance = os.path.join(folder, "varnish")
        places = ["-a", f"127.0.0.1:{self.port}", "-a", f"proxy=127.0.0.1:{self.proxy_port},PROXY"]
        places += ["-T", f"127.0.0.1:{free_port()}"]
        memory = ["-s", "malloc,64m", *(word for pair in PARAMETERS.items() for word in ("-p", "=".join(pair)))]
        self.words = varnishd_words(os.path.join(HERE, "live.vcl"), folder, ports, places, memory)
        self.running = contextlib.ExitStack()

    def start(self):
        child = self.running.enter_context(started(self.words, self.errors))
        wait_until(lambda: probe(self.port), child, self.errors)

    def stop(self):
        self.running.close()

    def tell(self, *words):
        """Gives a command to varnishd."""
        words = ["varnishadm", "-n", self.instance, *words]
        done = subprocess.run(words, stdin=subprocess.DEVNULL, capture_output=True, text=True)
        if done.returncode:
            sys.exit(f"{' '.join(words)}: {done.stdout}{done.stderr}")

    def restart_child(self):
        self.tell("stop")
        self.tell("start")

    def restart(self):
        self.stop()
        self.start()


class Pipe:
    """Programs that run in a row, from varnishlog to a tool, whose output is read as it comes."""

    def __init__(self, name, folder, instance, program, vslog):
        printing, options, tool, ended = PIPES[name]
        self.name, self.tool, self.ended = name, tool, re.compile(ended, re.M)
        self.taken, self.written = (os.path.join(folder, f"{name}.{kind}") for kind in ("theirs", "ours"))
        self.errors = {what: os.path.join(folder, f"{name}.{what}") for what in ("varnishlog", "vslog", "tool")}
        self.lines, self.digest, self.delays, self.resident = 0, hashlib.sha256(), [], []
        rows = [
            (["varnishlog", "-n", instance, *printing], "varnishlog"),
            (["tee", self.taken], None),
            ([vslog, *options], "vslog"),
            (["tee", self.written], None),
            ([program, *tool, "-r", "-"], "tool"),
        ]
        self.programs, source = [], subprocess.DEVNULL
        for words, what in rows:
            with open(self.errors[what] if what else os.devnull, "wb") as errors:
                child = subprocess.Popen(words, stdin=source, stdout=subprocess.PIPE, stderr=errors)
            if source != subprocess.DEVNULL:
                source.close()
            self.programs.append(child)
            source = child.stdout
        self.reader = threading.Thread(target=self.read, args=(source,), daemon=True)
        self.reader.start()

    def has_come(self):
        """Whether more than a header came out of vslog, whose file `tee` makes a while after it begins."""
        return os.path.exists(self.written) and os.path.getsize(self.written) > 8

    def read(self, source):
        """Reads all lines, and keeps how long after its request's end each came that tells it."""
        left = b""
        while piece := os.read(source.fileno(), 1 << 16):
            now = time.time()
            lines, feed, left = (left + piece).rpartition(b"\n")
            self.lines += lines.count(b"\n") + len(feed)
            self.digest.update(lines + feed)
            self.delays += [now - float(found) for found in self.ended.findall(lines)]
        source.close()

    def measure(self):
        """Keeps the resident memory of vslog, in MiB."""
        with open(f"/proc/{self.programs[2].pid}/status") as file:
            self.resident += [int(line.split()[1]) / 1024 for line in file if line.startswith("VmRSS:")]

    def told(self, text):
        """How often varnishlog has told something."""
        return message_of(self.errors["varnishlog"]).count(text)

    def running(self):
        """Fails where a program of the pipe has ended."""
        for child in self.programs:
            if child.poll() is not None:
                sys.exit(f"{self.name}: {child.args[0]} has ended, status {child.returncode}: {self.messages()}")

    def messages(self):
        """What the programs told, but for what varnishlog tells of the log that was away."""
        texts = [message_of(path) for path in self.errors.values()]
        away = re.compile(r"Log (abandoned|reacquired|overrun)|Failed to acquire log|^$")
        return "; ".join(line for text in texts for line in text.splitlines() if not away.match(line))

    def end(self):
        """Ends varnishlog, and waits until the others have ended with it: their statuses."""
        self.programs[0].send_signal(signal.SIGINT)
        self.reader.join()
        return [child.wait() for child in self.programs]


def wait_for_all(pipes, seconds, holds):
    """Waits until something holds of all pipes."""
    until = time.monotonic() + seconds
    while waiting := [pipe for pipe in pipes if not holds(pipe)]:
        if time.monotonic() > until:
            told = [f"{pipe.name}: varnishlog: {message_of(pipe.errors['varnishlog'])}" for pipe in waiting]
            sys.exit("\n".join(told))
        time.sleep(0.05)


def wait_until_through(pipes):
    """Waits until all that was logged has come through."""
    lines = [-FEW_LINES] * len(pipes)
    while any(pipe.lines >= before + FEW_LINES for pipe, before in zip(pipes, lines)):
        lines = [pipe.lines for pipe in pipes]
        time.sleep(STILL)


def restart(what, change, pipes, traffic):
    """Restarts a server while no client has a request, and goes on once each varnishlog has the log again."""
    traffic.pause()
    wait_until_through(pipes)
    before = {pipe: pipe.told("Log reacquired") for pipe in pipes}
    begun = time.monotonic()
    change()
    wait_for_all(pipes, 120, lambda pipe: pipe.told("Log reacquired") > before[pipe])
    print(f"{what} was restarted, and its log was there again after {time.monotonic() - begun:.1f} s", flush=True)
    traffic.go_on()


def run_for(seconds, varnish, pipes, traffic):
    """Lets clients send requests for so long, with a restart of the child after a third, and of varnishd after two."""
    begun, done, changes = time.monotonic(), 0, [("the child", varnish.restart_child), ("varnishd", varnish.restart)]
    traffic.start()
    while (past := time.monotonic() - begun) < seconds:
        for pipe in pipes:
            pipe.running()
            pipe.measure()
        if done < len(changes) and past > seconds * (done + 1) / 3:
            restart(*changes[done], pipes, traffic)
            done += 1
        varnish.tell("ban", "req.url", "~", f"^/item/{done}$")
        time.sleep(min(SAMPLE, max(0.1, seconds / 6)))
    traffic.end()


def end_all(pipes):
    """Ends the pipes once all has come through."""
    wait_until_through(pipes)
    for pipe in pipes:
        statuses = pipe.end()
        if any(statuses):
            sys.exit(f"{pipe.name}: the statuses are {statuses}: {pipe.messages()}")


def print_pipe(pipe):
    """Prints what is told of a pipe while it ran."""
    delays = sorted(pipe.delays)
    if not delays:
        sys.exit(f"{pipe.name}: no request has ended: {pipe.messages()}")
    late = sum(delay > MOST_LATE for delay in delays)
    at = {part: 1000 * delays[min(len(delays) - 1, int(part * len(delays)))] for part in (0.5, 0.99, 1)}
    first, largest, last = pipe.resident[0], max(pipe.resident), pipe.resident[-1]
    for line in (
        f"{pipe.lines} lines, {len(delays)} of them with a request's end, half of these within {at[0.5]:.1f} ms of it, "
        f"99 of 100 within {at[0.99]:.1f} ms, all within {at[1]:.1f} ms, {late} after more than {MOST_LATE} s",
        f"vslog had {first:.1f} MiB at first, {largest:.1f} MiB at most, and {last:.1f} MiB at last",
        f"varnishlog was overrun {pipe.told('Log overrun')} times; messages: {pipe.messages() or 'none'}",
    ):
        print(f"{pipe.name}: {line}", flush=True)


def bench(program, given):
    vslog = given.vslog
    missing = [tool for tool in [*NEEDED, program, vslog] if shutil.which(tool) is None]
    if missing:
        sys.exit(f"not there: {' '.join(missing)}; apt-get install varnish curl, make build")
    for stop in (signal.SIGTERM, signal.SIGHUP):
        signal.signal(stop, lambda *_: sys.exit(1))  # so that what was started is stopped
    with tempfile.TemporaryDirectory(dir=given.logs) as folder, contextlib.ExitStack() as stack:
        ports = {
            "BACKEND_PORT": stack.enter_context(backend(LiveBackend)),
            "REFUSING_PORT": stack.enter_context(refusing_port()),
        }
        varnish = Varnish(folder, ports)
        stack.callback(varnish.stop)
        varnish.start()
        pipes = [Pipe(name, folder, varnish.instance, os.path.abspath(program), vslog) for name in PIPES]
        stack.callback(lambda: [child.kill() for pipe in pipes for child in pipe.programs])
        wait_for_all(pipes, 20, lambda pipe: probe(varnish.port) and pipe.has_come())
        traffic = Traffic(varnish.port, varnish.proxy_port, given.rate)
        run_for(60 * given.minutes, varnish, pipes, traffic)
        end_all(pipes)
        print(f"{len(traffic.answered)} requests of {60 * given.minutes:.0f} s were answered")
        for pipe in pipes:
            print_pipe(pipe)
        came = [Came(pipe.name, pipe.taken, pipe.written, pipe.tool, pipe.digest.hexdigest()) for pipe in pipes]
        if not compare_all(os.path.abspath(program), came, traffic.answered):
            sys.exit("not all is as it should be")
