"""Servers on 127.0.0.1 for the benches: a small backend, and varnishd over it."""

import contextlib
import http.client
import os
import re
import socket
import subprocess
import sys
import threading
import time
from http.server import BaseHTTPRequestHandler, ThreadingHTTPServer

PATIENCE = 20  # seconds that a server is given to begin
GONE = "Backend,BackendReuse,BackendStart"  # tags that Varnish has no more since 7.3


def unknown_tags():
    """The tags of the Varnish that runs here that are none of ours."""
    told = subprocess.run(["varnishlog", "-V"], stdin=subprocess.DEVNULL, capture_output=True, text=True)
    found = re.search(r"varnish-(\d+)\.(\d+)", told.stdout + told.stderr)
    if not found:
        sys.exit(f"varnishlog -V: {told.stdout}{told.stderr}")
    return "VdpAcct" if (int(found[1]), int(found[2])) >= (7, 3) else f"{GONE},VdpAcct"


def text_of(kind, number):
    """The body of an answer."""
    if kind == "page":
        return b'<p><esi:include src="/item/%d"/><esi:include src="/item/%d?part=2"/></p>\n' % (number, number)
    return b"%s %d\n" % (kind.encode(), number) + b"some words of it\n" * (number % 50)


class Backend(BaseHTTPRequestHandler):
    """Answers items, pages that include two items, an account that isn't cached, and errors."""

    protocol_version = "HTTP/1.1"
    wbufsize = -1  # an answer is sent as a whole
    disable_nagle_algorithm = True

    def do_GET(self):
        kind, number = self.path.partition("?")[0][1:].split("/")
        age = 0 if kind == "account" else 2 + int(number) % 5
        self.answer(500 if kind == "broken" else 200, text_of(kind, int(number)), age)

    def do_POST(self):
        self.rfile.read(int(self.headers["Content-Length"]))
        self.answer(200, b"taken\n", 0)

    def answer(self, status, body, age):
        self.send_response(status)
        self.send_header("Content-Type", "text/html; charset=utf-8")
        self.send_header("Content-Length", str(len(body)))
        self.send_header("Cache-Control", f"max-age={age}")
        self.send_header("ETag", f'"{len(body):x}"')
        self.end_headers()
        self.wfile.write(body)

    def log_message(self, *_):
        """Tells nobody."""


class Server(ThreadingHTTPServer):
    """A server that takes as many connections at once as Varnish may open."""

    request_queue_size = 256
    daemon_threads = True

    def handle_error(self, *_):
        """Tells nobody that Varnish closed a connection before its answer was sent."""


@contextlib.contextmanager
def backend(handler=Backend):
    """A backend that runs, as its port."""
    server = Server(("127.0.0.1", 0), handler)
    threading.Thread(target=server.serve_forever, daemon=True).start()
    try:
        yield server.server_port
    finally:
        server.shutdown()
        server.server_close()


@contextlib.contextmanager
def refusing_port():
    """A port that is taken, and refuses connections."""
    with socket.socket() as taken:
        taken.bind(("127.0.0.1", 0))
        yield taken.getsockname()[1]


def free_port():
    """A port that nobody has."""
    with refusing_port() as port:
        return port


@contextlib.contextmanager
def started(words, errors, output=subprocess.DEVNULL):
    """A program that runs, its messages in a file, and that is stopped at the end in all cases."""
    with open(errors, "wb") as file:
        child = subprocess.Popen(words, stdin=subprocess.DEVNULL, stdout=output, stderr=file, text=True)
    try:
        yield child
    finally:
        child.terminate()
        try:
            child.wait(PATIENCE)
        except subprocess.TimeoutExpired:
            child.kill()
            child.wait()


def message_of(errors):
    """What a program has told."""
    with open(errors, errors="replace") as file:
        return file.read().strip()


def probe(port):
    """Whether Varnish answers."""
    connection = http.client.HTTPConnection("127.0.0.1", port, timeout=PATIENCE)
    try:
        connection.request("GET", "/item/0")
        return connection.getresponse().status == 200
    except OSError:
        return False
    finally:
        connection.close()


def wait_until(holds, child, errors):
    """Waits until something holds. A program that has ended, or that takes too long, ends this one."""
    end = time.monotonic() + PATIENCE
    while not holds():
        if child.poll() is not None or time.monotonic() > end:
            sys.exit(f"{child.args[0]} doesn't run: {message_of(errors)}")
        time.sleep(0.1)


def wait_until_still(path):
    """Waits until a file doesn't grow."""
    size = -1
    while size != os.path.getsize(path):
        size = os.path.getsize(path)
        time.sleep(1)


def varnishd_words(vcl, folder, ports, places, memory):
    """The words that start varnishd in a folder, with a VCL over ports of backends, and where it listens."""
    with open(vcl) as source:
        text = source.read()
    for name, number in ports.items():
        text = text.replace(f'"{name}"', f'"{number}"')
    own = os.path.join(folder, os.path.basename(vcl))
    with open(own, "w") as file:
        file.write(text)
    return ["varnishd", "-F", "-j", "none", "-n", os.path.join(folder, "varnish"), *places, "-f", own, *memory]
