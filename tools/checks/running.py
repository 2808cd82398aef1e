"""What the parts of tools/check share: failing, running the program, comparing what comes out, and folders of files."""

import contextlib
import os
import pathlib
import subprocess
import sys
import tempfile
import typing

TOP = pathlib.Path(__file__).resolve().parents[2]
MOST_SECONDS = 20
MOST_LINES, MOST_COLUMNS = 5, 160  # of a text that differs, as it is shown


class Failed(Exception):
    """Something is not as it should be; the message tells what."""


class Run(typing.NamedTuple):
    """What came out of a run."""

    status: int
    stderr: bytes
    stdout: bytes


@contextlib.contextmanager
def temporary_folder():
    with tempfile.TemporaryDirectory(prefix="check-") as folder:
        yield pathlib.Path(folder)


def check_program(path):
    """Fails where a program isn't there."""
    if not os.access(path, os.X_OK):
        raise Failed(f"{path} is missing: run rt ci first")


def run(words, folder=TOP, stdin=b"", stdout=subprocess.PIPE, stderr=subprocess.PIPE, before=None):
    """Runs a command in a folder, over these bytes, after what is to be done before; of a given stream nothing came."""
    streams = {"input": stdin, "stdout": stdout, "stderr": stderr}
    try:
        done = subprocess.run(words, cwd=folder, timeout=MOST_SECONDS, preexec_fn=before, **streams)
    except OSError as error:
        raise Failed(f"{shown(words)}: {error.strerror}") from None
    except subprocess.TimeoutExpired:
        raise Failed(f"{shown(words)}: it hasn't ended after {MOST_SECONDS} seconds") from None
    return Run(done.returncode, done.stderr or b"", done.stdout or b"")


def made_by(script, *words):
    """What a script of the repository prints."""
    came = run([sys.executable, str(TOP / script), *words])
    if came.status:
        raise Failed(f"{script} {shown(words)}: status {came.status}{some_lines('>', came.stderr.splitlines())}")
    return came.stdout


def shown(words):
    """The words of a command as a person reads them."""
    return " ".join(os.fsdecode(word) for word in words)[:200]


def some_lines(sign, lines):
    """The first of some lines behind a sign, with bytes that can't be printed as escapes."""
    cut = [repr(line)[2:-1][:MOST_COLUMNS] for line in lines[:MOST_LINES]]
    return "".join(f"\n{sign} {line}" for line in cut)


def same_text(what, wanted, got):
    """Fails where two texts differ, and shows the first lines that do."""
    if wanted == got:
        return
    ours, theirs = wanted.split(b"\n"), got.split(b"\n")
    pairs = zip(ours, theirs)
    at = next((at for at, (one, other) in enumerate(pairs) if one != other), min(len(ours), len(theirs)))
    lines = some_lines("<", ours[at:]) + some_lines(">", theirs[at:])
    raise Failed(f"{what} differs from line {at + 1} on ('<' is wanted):{lines}")


def same_run(what, wanted, got):
    """Fails where what came out of a run is not what is wanted."""
    if wanted.status != got.status:
        told = some_lines(">", got.stderr.splitlines())
        raise Failed(f"{what}: the status is {got.status}, not {wanted.status}{told}")
    same_text(f"{what}: standard error", wanted.stderr, got.stderr)
    same_text(f"{what}: standard output", wanted.stdout, got.stdout)


def compare(program, words, wanted_stdout, wanted_stderr=b"", status=0, folder=TOP, stdin=b""):
    """Runs the program on words, and fails where another thing comes out."""
    same_run(shown(words), Run(status, wanted_stderr, wanted_stdout), run([program, *words], folder, stdin))


def tree(folder):
    """What lies in a folder: the bytes of each file, and nothing for each folder, by their paths from there."""
    found = {}
    for path in sorted(folder.rglob("*")):
        found[path.relative_to(folder).as_posix()] = path.read_bytes() if path.is_file() else None
    return found


def write_tree(folder, files):
    """Writes such files into an empty folder."""
    for name, content in files.items():
        if content is None:
            (folder / name).mkdir(parents=True, exist_ok=True)
        else:
            (folder / name).parent.mkdir(parents=True, exist_ok=True)
            (folder / name).write_bytes(content)


def same_tree(what, wanted, got):
    """Fails where other files lie there, or others than these."""
    for name in sorted(wanted.keys() | got.keys()):
        if name not in got:
            raise Failed(f"{what}: {name} is missing")
        if name not in wanted:
            raise Failed(f"{what}: {name} is left there")
        if wanted[name] is None or got[name] is None:
            if wanted[name] != got[name]:
                raise Failed(f"{what}: {name} is a file where a folder is wanted, or the reverse")
        else:
            same_text(f"{what}: {name}", wanted[name], got[name])
