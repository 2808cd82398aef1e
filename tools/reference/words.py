"""Reads the words of a command line, or tells their first fault, by docs/formats/command-line.md alone.

`read(words)` gives the job that words state; where they are refused, Refused with the message.
"""

import dataclasses
import re

from patterns import NotClaimed
from selection import read_rule

FLAGS = {"varnishlog": "aAbcCdEv", "varnishncsa": "abcCdE", "varnishtop": "1bcCdEf", "varnishstat": "1jl"}
WITH_VALUE = {"varnishlog": "giIkLqQrTwxX", "varnishncsa": "FgkLqQrTw", "varnishtop": "giIkLqQrTxX", "varnishstat": "f"}
ABSENT = {"varnishlog": "DhnPRtuV", "varnishncsa": "DfhjnPRtV", "varnishtop": "hnptV", "varnishstat": "hInrtVxX"}
CONVERT = "convert"
GROUPINGS = ["raw", "vxid", "request", "session"]
OF_ACCESS_LINES = ["vxid", "request"]  # the groupings that varnishncsa takes
RANGES = {"-k": (1, 999999999), "-L": (1, 1000000), "-T": (1, 1000000)}
RANGES |= {"--ring": (64, 1048576), "--reclen": (16, 4000), "--turns": (0, 65536)}
MADE, SEEDS = (1, 100000), (0, 65536)
MOST_FEEDS = 16


class Refused(Exception):
    """A run ends with this message and status."""

    def __init__(self, message, status=2):
        super().__init__(message)
        self.status = status


@dataclasses.dataclass
class Job:
    """What words state: the tool, its flags, and the last value of each option that doesn't gather."""

    tool: str | None = None
    flags: set = dataclasses.field(default_factory=set)
    values: dict = dataclasses.field(default_factory=dict)
    feeds: list = dataclasses.field(default_factory=list)
    queries: list = dataclasses.field(default_factory=list)  # of -q and -Q, each a letter and its text
    rules: list = dataclasses.field(default_factory=list)  # of -i, -x, -I and -X, each a letter, its text and its word
    globs: list = dataclasses.field(default_factory=list)
    order: tuple | None = None  # "feeds first", or "turns" and a seed; None on threads

    def has_feeds(self):
        return bool(self.feeds) or "--gen" in self.values

    def grouping(self):
        return self.values.get("-g", "vxid")


class Reader:
    """The words that are left, the one that is read, and the job so far."""

    def __init__(self, words):
        self.left, self.word, self.job = list(words), "", Job()

    def read(self):
        while self.left:
            self.word = self.left.pop(0)
            if self.job.tool is None:
                self.before_tool()
            elif self.word.startswith("-") and len(self.word) > 1:
                self.letters()
            else:
                self.refuse("unknown option")
        return self.job

    def refuse(self, what):
        raise Refused(f"vtools: {what}: {self.word}")

    def value(self):
        """The next word, which is the one that is read from now on."""
        if not self.left:
            self.refuse("option needs a value")
        self.word = self.left.pop(0)
        return self.word

    def before_tool(self):
        job, word = self.job, self.word
        if not word.startswith("-"):
            if word not in FLAGS:
                self.refuse("unknown tool")
            job.tool = word
        elif word == "--feed-first":
            job.order = ("feeds first",)
        elif word == "--feed":
            job.feeds.append(self.value())
            if len(job.feeds) > MOST_FEEDS:
                self.refuse("bad value")
        elif word == "--gen":
            job.values[word] = self.two_numbers(self.value())
        elif word in RANGES and word.startswith("--"):
            job.values[word] = self.number(self.value(), *RANGES[word])
            job.order = ("turns", job.values[word]) if word == "--turns" else job.order
        else:
            self.refuse("unknown option")

    def letters(self):
        """The letters of a word, of which one with a value takes the rest."""
        word, tool = self.word, self.job.tool
        for at, letter in enumerate(word[1:], 1):
            if letter in ABSENT[tool]:
                self.refuse("not supported here")
            if letter in WITH_VALUE[tool]:
                return self.take("-" + letter, word[at + 1 :] or self.value())
            if letter not in FLAGS[tool]:
                self.refuse("unknown option")
            self.job.flags.add(letter)

    def take(self, option, text):
        """Takes the value of an option of the tool."""
        job = self.job
        if option in ("-q", "-Q"):
            job.queries.append((option, text))
        elif option in ("-i", "-x", "-I", "-X"):
            job.rules.append((option, text, self.word))
        elif option == "-f":
            job.globs.append(text)
        elif option == "-g" and text not in (OF_ACCESS_LINES if job.tool == "varnishncsa" else GROUPINGS):
            self.refuse("bad value")
        else:
            job.values[option] = self.number(text, *RANGES[option]) if option in RANGES else text

    def number(self, text, least, most):
        if not re.fullmatch("[0-9]{1,9}", text) or not least <= int(text) <= most:
            self.refuse("bad value")
        return int(text)

    def two_numbers(self, text):
        count, comma, seed = text.partition(",")
        if not comma:
            self.refuse("bad value")
        return self.number(count, *MADE), self.number(seed, *SEEDS)


def check_whole(job):
    """Fails where the words are right one by one, and state no run."""
    if job.tool is None:
        raise Refused("vtools: no tool")
    if job.tool in ("varnishtop", "varnishstat") and not job.flags & set("1jl"):
        raise Refused("vtools: give -1 to run once")
    lists_names = job.tool == "varnishstat" and "l" in job.flags
    if "-r" not in job.values and not job.has_feeds() and not lists_names:
        raise Refused("vtools: no log")
    if "-r" in job.values and job.has_feeds():
        raise Refused("vtools: two logs")


def check_rules(job):
    """Fails with the first rule whose taglist, or else whose pattern, is refused."""
    for option, text, word in job.rules:
        what = read_rule(option, text)
        if isinstance(what, str):
            raise Refused(f"vtools: {what}: {word}")


def check_texts(words):
    """Fails with the first word that isn't UTF-8."""
    for place, word in enumerate(words, 1):
        try:
            word.encode()
        except UnicodeEncodeError:
            raise Refused(f"vtools: argument {place} is not UTF-8") from None


def asks_for_help(words):
    """Whether the words ask for a help or a version, whose texts aren't said here."""
    is_of_command = len(words) == 2 and words[0] in (*FLAGS, CONVERT) and words[1] in ("--help", "-h")
    return is_of_command or words in (["--help"], ["--version"])


def names(words):
    """The job of a command of two names behind its own: the log that is read, and the file that is written."""
    if len(words) < 3:
        raise Refused("vtools: no log")
    if len(words) > 3:
        raise Refused(f"vtools: bad value: {words[3]}")
    return Job(tool=words[0], values={"-r": words[1], "-w": words[2]})


def read(words):
    """The job of the words; Refused with their first fault."""
    check_texts(words)
    if asks_for_help(words):
        raise NotClaimed
    if words[:1] == [CONVERT]:
        return names(words)
    job = Reader(words).read()
    check_whole(job)
    check_rules(job)
    return job
