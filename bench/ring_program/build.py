"""Proves and builds the program that the benches ring and ring_sweep run, in a copy of the crates.

Its source stands beside this script as text, since it is no crate of the repository.
"""

import contextlib
import pathlib
import shutil
import subprocess
import sys
import tempfile

HERE = pathlib.Path(__file__).resolve().parent
TOP = HERE.parent.parent
NAME = "ring_bench"
USES = "log_model vsl_tags vsl_record ring_layout log_ring atomic_table crossbeam_queue anyhow"


def copy_crates(folder):
    """Copies the crates, without what `rt` made of them, and adds the program as one more."""
    shutil.copytree(TOP / "crates", folder / "crates", ignore=shutil.ignore_patterns("out"))
    shutil.copy(TOP / "HANDLES", folder / "HANDLES")
    listed = (TOP / "crates.txt").read_text()
    (folder / "crates.txt").write_text(f"{listed}{NAME}: {USES}\n")
    for text in HERE.rglob("*.txt"):
        file = folder / "crates" / NAME / text.relative_to(HERE).with_suffix("")
        file.parent.mkdir(parents=True, exist_ok=True)
        shutil.copy(text, file)


def build(folder):
    """Proves and builds the program, and answers where it is."""
    folder = pathlib.Path(folder).resolve()
    copy_crates(folder)
    crate = folder / "crates" / NAME
    # a first run of a few units, since only a run links the program
    words = ["rt", "run", "--", *"check 1 1 0 64 9 9".split()]
    done = subprocess.run(words, cwd=crate, stdout=subprocess.PIPE, stderr=subprocess.STDOUT, text=True)
    program = crate / "out" / NAME
    if done.returncode != 0 or not program.exists():
        sys.exit(f"{done.stdout}rt run: status {done.returncode}")
    return str(program)


@contextlib.contextmanager
def built(program):
    """A program that is given, or one that is built in a temporary folder."""
    if program:
        yield program
    else:
        with tempfile.TemporaryDirectory() as folder:
            yield build(folder)
