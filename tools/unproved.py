#!/usr/bin/env python3
"""Builds a program of this repository without a proof, for tests alone, and copies it out of the folder of its try.

`rt try` builds a program with checks, runs it in a folder of its own, and throws it away. Here it is run on a pipe that
nobody writes, so that it waits while its file is copied. Usage: tools/unproved.py CRATE OUT.
"""
import errno
import os
import pathlib
import shutil
import subprocess
import sys
import tempfile
import time

TOP = pathlib.Path(__file__).resolve().parent.parent
# Words with which a program opens a log first.
OPENS = {"vtools": ["varnishlog", "-r"], "vslog": []}


class NotBuilt(Exception):
    """A program was not built; the message has what was printed."""


def opened_for_writing(pipe, call):
    """The pipe, once a program has opened it for reading."""
    while call.poll() is None:
        try:
            return os.open(pipe, os.O_WRONLY | os.O_NONBLOCK)
        except OSError as error:
            if error.errno != errno.ENXIO:
                raise
        time.sleep(0.05)
    return None


def reads(process, pipe):
    """Whether a process has a pipe open."""
    try:
        return any(it.readlink() == pipe for it in (process / "fd").iterdir())
    except OSError:
        return False  # another user's, or it has ended


def reader_of(pipe, call):
    """The program that reads a pipe, in the folder of its try.

    A pipe has a reader from the moment on in which a program asks for it, and the program its file a while later, which
    is long on a busy machine.
    """
    while call.poll() is None:
        for process in pathlib.Path("/proc").glob("[0-9]*"):
            if int(process.name) != os.getpid() and reads(process, pipe):
                return process / "cwd" / "program"
        time.sleep(0.05)
    raise NotBuilt(f"no process reads {pipe}")


def build(crate, to):
    """Builds the program of a crate as the file `to`."""
    with tempfile.TemporaryDirectory(prefix="unproved-") as folder:
        pipe, said = pathlib.Path(folder).resolve() / "log", pathlib.Path(folder) / "said"
        os.mkfifo(pipe)
        words = ["rt", "try", "--seconds", "600", "--", *OPENS[crate], str(pipe)]
        with said.open("wb") as messages:
            call = subprocess.Popen(words, cwd=TOP / "crates" / crate, stdin=subprocess.DEVNULL, stdout=messages,
                                    stderr=messages)
        pen = opened_for_writing(pipe, call)
        if pen is None:
            raise NotBuilt(said.read_text(errors="replace"))
        try:
            to.parent.mkdir(parents=True, exist_ok=True)
            shutil.copyfile(reader_of(pipe, call), to)
            to.chmod(0o755)
        finally:
            os.close(pen)
            call.wait()


if __name__ == "__main__":
    if len(sys.argv) != 3 or sys.argv[1] not in OPENS:
        sys.exit("usage: tools/unproved.py CRATE OUT")
    try:
        build(sys.argv[1], pathlib.Path(sys.argv[2]))
    except NotBuilt as error:
        sys.exit(f"{sys.argv[1]} is not built:\n{error}")
