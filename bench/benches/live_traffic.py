"""Traffic of every kind for live.py, at a stated rate: a backend, and clients of HTTP/1, HTTP/2, pipes and PROXY."""

import contextlib
import http.client
import itertools
import random
import socket
import subprocess
import threading
import time

from servers import PATIENCE, Backend

CLIENTS = 6  # that keep their connections
# Parts of a hundred, method, kind and headers.
KINDS = [
    (40, "GET", "item", {}),
    (6, "GET", "item", {"Accept-Encoding": "gzip", "Referer": "http://www.example.com/page/1"}),
    (4, "HEAD", "item", {}),
    (8, "GET", "page", {"Accept-Encoding": "gzip"}),
    (6, "GET", "account", {"Cookie": "session=1; theme=dark", "Authorization": "Basic bWU6c2VjcmV0"}),
    (4, "POST", "account", {"Content-Type": "text/plain"}),
    (4, "GET", "old", {}),
    (4, "GET", "flaky", {}),
    (3, "GET", "moved", {}),
    (3, "GET", "none", {}),
    (2, "GET", "failed", {}),
    (2, "GET", "refused", {}),
    (2, "GET", "broken", {}),
    (2, "GET", "missed", {}),
    (2, "GET", "passed", {}),
    (1, "GET", "bad", {}),
    (1, "GET", "cut", {}),
    (1, "GET", "slow", {}),
    (1, "GET", "forged", {}),
    (1, "PURGE", "item", {}),
    (1, "GET", "item", {"X-Said": "a\tb caf\xe9 \\x09 \"c\""}),
    (1, "GET", "item", {"X-Long": "long " * 800}),
    (1, "GET", "pipe", {}),
]
URLS = 200  # of each kind
AGENTS = ["curl/7.88.1", "Mozilla/5.0 (X11; Linux x86_64; rv:115.0) Gecko/20100101 Firefox/115.0", "Feedreader/2.4"]
SMALL = "GET /item/1 HTTP/1.1\r\nHost: raw.example.com\r\nConnection: close\r\n\r\n"
UPGRADE = "GET /chat/%d HTTP/1.1\r\nHost: raw.example.com\r\nConnection: Upgrade\r\nUpgrade: websocket\r\n\r\n"
# A head of PROXY's second version: of TCP over IPv4, from 198.51.100.7 8080 to 127.0.0.1 80.
PROXIED = b"\r\n\r\n\0\r\nQUIT\n\x21\x11\x00\x0c\xc6\x33\x64\x07\x7f\0\0\1\x1f\x90\0\x50"
MANY_HEADERS = "".join(f"X-Part-{number}: {number}\r\n" for number in range(80))


class LiveBackend(Backend):
    """Answers each kind of url in its own way, also by parts, late, broken off, and as another protocol."""

    def do_GET(self):
        kind, number = self.path.partition("?")[0][1:].split("/")
        number = int(number)
        if kind == "chat":
            self.chat()
        elif kind == "cut":
            self.begin(200, 5000, 0)
            self.wfile.write(b"it ends here\n")
            self.close_connection = True
        elif kind == "flaky":
            self.answer(200 if "X-Retry" in self.headers else 503, b"it was asked again\n", 1)
        elif kind == "slow":
            time.sleep(0.3)
            self.answer(200, b"too late\n", 1)
        else:
            age = 0 if kind in ("account", "pipe") else 2 + number % 5
            self.answer(500 if kind == "broken" else 200, body_of(kind, number), age)

    def do_HEAD(self):
        self.begin(200, 10, 0)

    def begin(self, status, length, age):
        """Sends the head of an answer."""
        self.send_response(status)
        self.send_header("Content-Type", "text/html; charset=utf-8")
        self.send_header("Content-Length", str(length))
        self.send_header("Cache-Control", f"max-age={age}")
        self.end_headers()

    def chat(self):
        """Speaks another protocol from here on: it says back what it hears."""
        self.send_response(101)
        self.send_header("Connection", "Upgrade")
        self.send_header("Upgrade", "websocket")
        self.end_headers()
        self.wfile.flush()
        self.close_connection = True
        while heard := self.connection.recv(4096):
            self.connection.sendall(heard)


def body_of(kind, number):
    """The body of an answer: of pages and their parts with more to include, and of some with a word that is none."""
    if kind == "page":
        return b'<p><esi:include src="/part/%d"/><esi:include src="/item/%d"/></p>\n' % (number, number)
    if kind == "part":
        return b'<b><esi:include src="/item/%d?part=1"/><esi:include src="/flaky/%d"/></b>\n' % (number, number)
    if kind == "bad":
        return b'<p><esi:exclude src="/item/1"/><esi:include/></p>\n'
    return b"%s %d\n" % (kind.encode(), number) + b"some words of it\n" * (number % 50)


def say(port, pieces):
    """Sends pieces over a connection of its own, and hears an answer to each, or that it was closed."""
    with socket.create_connection(("127.0.0.1", port), timeout=2) as connection:
        with contextlib.suppress(OSError):
            for piece in pieces:
                connection.sendall(piece if isinstance(piece, bytes) else piece.encode())
                if not connection.recv(65536):
                    return


def odd_talks(port, proxy_port):
    """What clients say that HTTP has not, or hardly: of each number a port and pieces."""
    return [
        lambda number: (port, [UPGRADE % number, "one\0two\n", b"\xff" * 300]),
        lambda number: (port, ["\x01\x02 garbage\r\n\r\n"]),
        lambda number: (port, [SMALL.replace("Host", "Ho st")]),
        lambda number: (port, [SMALL.replace("\r\n\r\n", f"\r\n{MANY_HEADERS}\r\n")]),
        lambda number: (port, [SMALL[:40]]),
        lambda number: (proxy_port, [f"PROXY TCP4 198.51.100.{number % 250} 127.0.0.1 4711 80\r\n{SMALL}"]),
        lambda number: (proxy_port, [PROXIED + SMALL.encode()]),
        lambda number: (proxy_port, ["PROXY of another kind\r\n\r\n"]),
    ]


def ask_by_h2(port, number, kinds=("item", "page", "account", "none")):
    """Asks for an url of some kinds at once over HTTP/2: whether all were answered."""
    words = ["curl", "-s", "-Z", "--http2-prior-knowledge", "--max-time", str(PATIENCE), "-H", f"X-Id: {number}"]
    for kind in kinds:
        words += ["-o", "/dev/null", f"http://127.0.0.1:{port}/{kind}/{number % URLS}"]
    return subprocess.run(words, stdin=subprocess.DEVNULL, stderr=subprocess.DEVNULL).returncode == 0


class Traffic:
    """Clients on threads, that send so many requests a second in all, and can pause with no connection open.

    Each request has a number in its header X-Id, and those that were answered are kept.
    """

    def __init__(self, port, proxy_port, rate):
        self.port, self.talks, self.rate = port, odd_talks(port, proxy_port), rate
        self.numbers, self.answered = itertools.count(1), set()
        self.ended, self.may_go, self.resting = False, threading.Event(), threading.Semaphore(0)
        clients = [(self.client, seed) for seed in range(CLIENTS)] + [(self.odd_client,), (self.h2_client,)]
        self.threads = [threading.Thread(target=client, args=seed, daemon=True) for client, *seed in clients]

    def start(self):
        self.may_go.set()
        for thread in self.threads:
            thread.start()

    def pause(self):
        """Returns once no client has a connection."""
        self.may_go.clear()
        for _ in self.threads:
            self.resting.acquire()

    def go_on(self):
        self.may_go.set()

    def end(self):
        self.ended = True
        for thread in self.threads:
            thread.join()

    def rest(self, until):
        """Sleeps until then, or for as long as all pause."""
        time.sleep(max(0, until - time.monotonic()))
        if not self.may_go.is_set():
            self.resting.release()
            self.may_go.wait()

    def client(self, seed):
        """Sends requests of all kinds, some over each connection."""
        draw, shares = random.Random(seed), [share for share, *_ in KINDS]
        while not self.ended:
            connection, due = http.client.HTTPConnection("127.0.0.1", self.port, timeout=PATIENCE), time.monotonic()
            for _ in range(draw.randrange(1, 200)):
                _, method, kind, headers = draw.choices(KINDS, shares)[0]
                is_over = self.asked(connection, draw, method, kind, headers)
                if is_over or self.ended or not self.may_go.is_set():
                    break
                due += CLIENTS / self.rate
                time.sleep(max(0, due - time.monotonic()))
            connection.close()
            self.rest(due + CLIENTS / self.rate)

    def asked(self, connection, draw, method, kind, headers):
        """Sends a request, and hears the answer: whether the connection ends with it."""
        number = next(self.numbers)
        headers = {"Host": "www.example.com", "User-Agent": draw.choice(AGENTS), "X-Id": str(number), **headers}
        body = b"order=%d" % draw.randrange(1000) if method == "POST" else None
        try:
            connection.request(method, f"/{kind}/{draw.randrange(URLS)}?by={draw.randrange(3)}", body, headers)
            answer = connection.getresponse()
            self.answered.add(number)
            answer.read()
            return answer.will_close
        except (OSError, http.client.HTTPException):
            return True  # as of an answer that is cut off

    def odd_client(self):
        for number in itertools.count():
            due = time.monotonic() + 0.25
            with contextlib.suppress(OSError):
                port, pieces = self.talks[number % len(self.talks)](number)
                say(port, pieces)
            self.rest(due)
            if self.ended:
                return

    def h2_client(self):
        while not self.ended:
            due, number = time.monotonic() + 0.5, next(self.numbers)
            if ask_by_h2(self.port, number):
                self.answered.add(number)
            self.rest(due)
