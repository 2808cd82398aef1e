"""Runs the whole command lines of cases/ over the programs, each in a fresh folder, and compares all that comes out.

cases/README.md says what a case is.
"""

import os
import re
from concurrent.futures import ThreadPoolExecutor

from checks.running import (
    TOP, Failed, Run, check_program, made_by, run, same_run, same_tree, temporary_folder, tree, write_tree,
)

CASES = TOP / "cases"
PROGRAM = "program"  # the file of a subject that names the program of its cases
FIRST_PROGRAM = "vtools"  # without that file
WORDS = {"args", "args.nul", "rows"}
EMPTY = {"also_on_threads", "large"}  # files that say something by being there
OF_ALL = WORDS | EMPTY | {"links", "made", "hex", "data"}
OF_NO_ROWS = {"stdout", "stderr", "status", "stdin", "files"}
DEFAULTS = {"stdout": None, "stderr": b"", "status": b"0\n"}
# The words of a row, its status and its message; the words may be none.
ROW = re.compile(rb"((?:[^ \t]+(?: [^ \t]+)*)?)\t([0-9]+)\t([^\t]+)")
ORDERS = {b"--feed-first": 1, b"--turns": 2}  # words that state an order, and their size with a value
BEFORE_TOOL = {b"--feed", b"--gen", b"--ring", b"--reclen"}  # those that have a value and state none


class Case:
    """The files of a folder of cases/, what its runs came to, and what is wrong with them."""

    def __init__(self, folder):
        self.name, self.wrong = folder.relative_to(CASES).as_posix(), []
        self.rows = self.on_threads = 0
        self.files = tree(folder)
        for line in self.files.get("links", b"").decode().splitlines():
            to, source = line.split(" ")
            if (TOP / source).is_file():
                self.files[to] = (TOP / source).read_bytes()
            else:
                self.tell(f"links names {source}, which is missing")
        self.data = self.below("data") | {name: self.spelled(name, text) for name, text in self.below("hex").items()}
        self.kinds = {name.split("/")[0] for name in self.files}

    def tell(self, what, where=""):
        self.wrong.append(f"{self.name}{where}: {what}")

    def below(self, folder):
        names = [name for name in self.files if name.startswith(f"{folder}/")]
        return {name.removeprefix(f"{folder}/"): self.files[name] for name in names}

    def spelled(self, name, text):
        """The bytes that a file of hex/ spells."""
        digits = re.sub(rb"#.*|[ \n]", b"", text).decode("latin-1")
        if not re.fullmatch(r"([0-9a-f]{2})+", digits):
            self.tell(f"hex/{name} is not hexadecimal")
            return b""
        return bytes.fromhex(digits)

    def make(self):
        """Adds the files that scripts print."""
        for line in self.files.get("made", b"").decode().splitlines():
            name, script, *words = line.split(" ")
            try:
                self.data[name] = made_by(script, *words)
            except Failed as failed:
                self.tell(failed)

    def check_form(self):
        """Tells what a case lacks, and what it has that no case of its kind has."""
        has_rows = "rows" in self.kinds
        if len(self.kinds & WORDS) != 1:
            self.tell("has not one of args, args.nul and rows")
        for name in sorted(EMPTY):
            if self.files.get(name):
                self.tell(f"{name} is not empty")
        for name, default in DEFAULTS.items():
            if not has_rows and name not in self.kinds and default is None:
                self.tell(f"{name} is missing")
            if name in self.kinds and self.files[name] == default:
                self.tell(f"{name} has what it is without this file")
        for name in sorted(self.kinds - OF_ALL - (set() if has_rows else OF_NO_ROWS)):
            self.tell(f"{name} is no file of such a case")

    def run_words(self, program, words, wanted, where):
        """Runs the program on words, and compares all that comes out."""
        try:
            with temporary_folder() as folder:
                write_tree(folder, self.data)
                came = run([program, *words], folder, self.files.get("stdin", b""))
                same_run("a run", wanted, came)
                # what lay there is left as it was, but for what comes out
                same_tree("the files that are left", self.data | self.below("files"), tree(folder))
        except Failed as failed:
            self.tell(failed, where)

    def run_twice(self, program, words, wanted, where=""):
        """Runs the program on words, and where the case says so once more without those that state an order."""
        self.run_words(program, words, wanted, where)
        if "also_on_threads" in self.kinds and (unordered := without_order(words)) != words:
            self.on_threads += 1
            self.run_words(program, unordered, wanted, where + ", on threads")

    def run_rows(self, program):
        """Runs each row: nothing is written but the row's message, and the row's status is answered."""
        lines = self.files["rows"].splitlines()
        if not lines:
            self.tell("rows is empty")
        for line in lines:
            self.rows += 1
            where = ", `%s`" % os.fsdecode(line.split(b"\t")[0])
            row = ROW.fullmatch(line)
            if row is None:
                form = "words with one space between each two, a tab, a status, a tab, and a message"
                self.tell(f"the row is not {form}", where)
                continue
            self.run_twice(program, row[1].split(), Run(int(row[2]), row[3] + b"\n", b""), where)

    def run(self, program):
        """Runs the case, if it has the form of one."""
        self.check_form()
        self.make()
        if self.wrong:
            return
        if "rows" in self.kinds:
            self.run_rows(program)
        else:
            ended = b"\n" if "args" in self.kinds else b"\0"
            text = self.files["args" if "args" in self.kinds else "args.nul"]
            words = text.removesuffix(ended).split(ended) if text else []
            stdout, stderr, status = (self.files.get(name, default) for name, default in DEFAULTS.items())
            self.run_twice(program, words, Run(int(status), stderr, stdout))
        if "also_on_threads" in self.kinds and not self.on_threads:
            self.tell("also_on_threads is there, and no words state an order of feeds")


def without_order(words):
    """The words without those before the tool that state an order of feeds."""
    kept, at = [], 0
    while at < len(words) and (words[at] in ORDERS or words[at] in BEFORE_TOOL):
        size = ORDERS.get(words[at], 2)
        if words[at] in BEFORE_TOOL:
            kept += words[at : at + size]
        at += size
    return kept + words[at:]


def program_of(subject):
    """The name of the program that the cases of a subject run."""
    named = subject / PROGRAM
    name = named.read_text().removesuffix("\n") if named.is_file() else FIRST_PROGRAM
    if named.is_file() and name == FIRST_PROGRAM:
        raise Failed(f"{named.relative_to(TOP)} has what it is without this file")
    return name


def all_cases():
    """The folders of all cases, by subject; a name stands in one subject alone."""
    names = set()
    for subject in sorted(CASES.iterdir()):
        if subject.name == "README.md":
            continue
        for folder in sorted(subject.iterdir()) if subject.is_dir() else [subject]:
            if folder == subject / PROGRAM:
                continue
            if not folder.is_dir():
                raise Failed(f"{folder.relative_to(TOP)} is no folder: a case is cases/SUBJECT/NAME")
            if folder.name in names:
                raise Failed(f"{folder.relative_to(TOP)}: this name stands in another subject, too")
            names.add(folder.name)
            yield folder


def programs_of(folders, programs):
    """The program of each case, by the paths of the programs that there are; each that a case runs is there."""
    found = {}
    for subject in {folder.parent for folder in folders}:
        name = program_of(subject)
        if name not in programs:
            raise Failed(f"{(subject / PROGRAM).relative_to(TOP)}: no program {name}")
        check_program(programs[name])
        found[subject] = programs[name]
    return [found[folder.parent] for folder in folders]


def check(programs, subjects, quick):
    """Checks the cases of these subjects, or of all where none is named; quickly without those that are large."""
    folders = [folder for folder in all_cases() if not subjects or folder.parent.name in subjects]
    folders = [folder for folder in folders if not (quick and (folder / "large").exists())]
    cases, paths = [Case(folder) for folder in folders], programs_of(folders, programs)
    with ThreadPoolExecutor(os.cpu_count()) as pool:
        list(pool.map(Case.run, cases, paths))
    failed = [case for case in cases if case.wrong]
    if failed:
        lines = [line for case in failed for line in case.wrong]
        raise Failed("\n".join([*lines, f"{len(failed)} of {len(cases)} failed"]))
    if not cases:
        raise Failed("there are none")
    rows, on_threads = sum(case.rows for case in cases), sum(case.on_threads for case in cases)
    return f"{len(cases)} of them, with {rows} rows; {on_threads} command lines on threads too"
