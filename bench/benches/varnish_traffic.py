"""Traffic for a log of Varnish's own: varnishd over a small backend and wrk, on 127.0.0.1, for beside_varnish.py."""

import contextlib
import os
import re
import signal
import subprocess
import sys
import tempfile

from servers import (
    backend, free_port, message_of, probe, refusing_port, started, unknown_tags, varnishd_words, wait_until,
    wait_until_still,
)

HERE = os.path.dirname(os.path.abspath(__file__))
REQUESTS = 66_000
LEAST_REQUESTS = 60_000
THREADS, CONNECTIONS, MOST_SECONDS = 2, 64, 120
SENT = "sent\n"  # what a thread of wrk prints at its end
# the ring holds all of the log, so a reader that is slow loses nothing
MEMORY = ["-s", "malloc,64m", "-p", "vsl_space=512M"]


def run_wrk(port, errors):
    """Sends the requests, and answers how many were answered."""
    words = ["wrk", "-t", str(THREADS), "-c", str(CONNECTIONS), "-d", f"{MOST_SECONDS}s", "--timeout", "10s"]
    script = ["-s", os.path.join(HERE, "varnish_traffic.lua"), f"http://127.0.0.1:{port}/"]
    printed = ""
    with started([*words, *script, "--", str(REQUESTS // THREADS)], errors, subprocess.PIPE) as wrk:
        for line in wrk.stdout:
            printed += line
            if line == SENT and printed.count(SENT) == THREADS:
                wrk.send_signal(signal.SIGINT)  # it would wait until its time is over
    counted = re.search(r"(\d+) requests in", printed)
    if not counted:
        sys.exit(f"wrk: {printed}{message_of(errors)}")
    return int(counted[1])


def requests_in(path):
    """The clients' requests of a log of Varnish, each of which its session's Link names, and its own Begin."""
    with open(path, "rb") as log:
        return log.read().count(b" rxreq\0") // 2


def write_log(path, folder):
    """Makes traffic, writes Varnish's log of it, and answers how many requests were answered."""
    errors, lost = os.path.join(folder, "varnishd"), os.path.join(folder, "varnishlog")
    port = free_port()
    with contextlib.ExitStack() as stack:
        ports = {"BACKEND_PORT": stack.enter_context(backend()), "REFUSING_PORT": stack.enter_context(refusing_port())}
        places = ["-a", f"127.0.0.1:{port}", "-T", "none"]
        vcl = os.path.join(HERE, "varnish_traffic.vcl")
        varnishd = stack.enter_context(started(varnishd_words(vcl, folder, ports, places, MEMORY), errors))
        wait_until(lambda: probe(port), varnishd, errors)
        words = ["varnishlog", "-n", os.path.join(folder, "varnish"), "-g", "raw", "-x", unknown_tags(), "-w", path]
        with started(words, lost) as varnishlog:
            # it writes when it has read all, so the first bytes show that it reads
            wait_until(lambda: probe(port) and os.path.exists(path) and os.path.getsize(path) > 0, varnishlog, lost)
            answered = run_wrk(port, os.path.join(folder, "wrk"))
            wait_until_still(path)
    if message_of(lost):
        sys.exit(f"varnishlog: {message_of(lost)}")
    return answered


def make_log(path):
    """Makes a log of Varnish. It ends this program where requests are too few, or records were lost."""
    with contextlib.suppress(FileNotFoundError):
        os.remove(path)
    with tempfile.TemporaryDirectory() as folder:
        answered = write_log(path, folder)
    if answered < LEAST_REQUESTS:
        sys.exit(f"wrk: {answered} requests were answered, at least {LEAST_REQUESTS} are wanted")
    if answered > requests_in(path):
        sys.exit(f"varnishlog: {answered} requests were answered, and {requests_in(path)} are in the log")
