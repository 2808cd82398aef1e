"""Streams of a program that take nothing, or not all: words for them, and what each is."""

import contextlib
import os
import resource
import signal
import tempfile

from checks.running import run

NOTHING, CLOSED, FULL, GONE = "nothing", "closed", "full", "a pipe whose reader has gone"
BUSY = "a full pipe that doesn't wait"
FILE = "a file"  # which may have a limit


def opened(stream):
    """What a word stands for, as a file that the caller closes."""
    if stream == FILE:
        return tempfile.TemporaryFile()
    if stream == FULL:
        return open("/dev/full", "wb", buffering=0)
    if stream in (GONE, BUSY):
        return open(pipe_without_reader() if stream == GONE else full_pipe(), "wb", buffering=0)
    return open("/dev/null", "r+b", buffering=0)


def pipe_without_reader():
    reading, writing = os.pipe()
    os.close(reading)
    return writing


def full_pipe():
    """A pipe that is its own reader and has no room: a write to it fails at once."""
    reading, writing = os.pipe()
    both = os.open(f"/proc/self/fd/{writing}", os.O_RDWR | os.O_NONBLOCK)
    os.close(reading)
    os.close(writing)
    try:
        while True:
            os.write(both, bytes(4096))
    except BlockingIOError:
        return both


def run_over(words, folder, stdin, out, errors, most):
    """Runs a command whose standard output and error are what these words stand for, or are taken where there is none.

    Of a file comes what it has then.
    """
    given = {name: stream for name, stream in (("stdout", out), ("stderr", errors)) if stream}
    with contextlib.ExitStack() as stack:
        ours = {name: stack.enter_context(opened(stream)) for name, stream in given.items()}
        came = run(words, folder, stdin, before=limited([None, out, errors], most=most), **ours)
        for name in [name for name, stream in given.items() if stream == FILE]:
            ours[name].seek(0)
            came = came._replace(**{name: ours[name].read()})
    return came


def limited(streams, memory=None, most=None):
    """What a program does before it begins: it closes streams, and limits itself; None where it does nothing.

    It has so many KiB of address space, and a file that it writes so many bytes at most, past which a write fails.
    """
    closed = [number for number, stream in enumerate(streams) if stream is CLOSED]
    if not closed and memory is None and most is None:
        return None

    def before():
        for number in closed:
            os.close(number)
        if memory is not None:
            resource.setrlimit(resource.RLIMIT_AS, (memory << 10, memory << 10))
        if most is not None:
            signal.signal(signal.SIGXFSZ, signal.SIG_IGN)
            resource.setrlimit(resource.RLIMIT_FSIZE, (most, most))

    return before
