"""Cases that run the program on words over files, beside tools/reference/vtools.py."""

import base64
import gzip
import os
import shlex
import shutil
import typing

import vtools
from checks.running import Failed, Run, same_run, same_tree, tree, write_tree
from checks.streams import BUSY, CLOSED, FILE, FULL, GONE, run_over
from fuzzing.files import Bytes

MOST_TOLD = 4000  # bytes of the records of a log
MOST_SPELLED = 50000  # signs of a word
REDIRECTIONS = {
    FULL: "{0}>/dev/full", CLOSED: "{0}>&-", GONE: "{0}> >(:)", FILE: "{0}>FILE{0}", BUSY: f"{{0}}> ({BUSY})",
}


class Streams(typing.NamedTuple):
    """What standard output and standard error are, where not all is taken, and how many bytes a file may have."""

    out: str = ""
    errors: str = ""
    most: int | None = None

    def room(self):
        rooms = [{"": None, FILE: self.most}.get(stream, 0) for stream in (self.out, self.errors)]
        return vtools.Room(*rooms, self.most)

    def shown(self, command):
        """The command as a shell runs it over these."""
        limit = f"trap '' XFSZ; prlimit --fsize={self.most} " if self.most is not None else ""
        wait = "sleep 1; " if GONE in self else ""  # until no reader is there
        command = f"({wait}{limit}{command})" if wait or limit else command
        given = [(number, stream) for number, stream in ((1, self.out), (2, self.errors)) if stream]
        return " ".join([command, *(REDIRECTIONS[stream].format(number) for number, stream in given)])


class CommandLine(typing.NamedTuple):
    """Words, the files of the folder where they run by their names, standard input, and the other streams."""

    words: list
    files: dict = {}
    stdin: typing.Any = Bytes(b"")
    streams: Streams = Streams()

    def difference(self, program, folder):
        """How what comes out differs from what must; None where it doesn't."""
        files, stdin = {name: file.data() for name, file in self.files.items()}, self.stdin.data()
        wanted = vtools.came(self.words, files, stdin, self.streams.room())
        try:
            write_tree(folder, files)
            came = run_over([program, *self.words], folder, stdin, *self.streams)
            same_run("the run", Run(*wanted[:3]), came)
            same_tree("the folder", wanted.files, tree(folder))
        except Failed as failed:
            return str(failed)
        finally:
            empty(folder)
        return None

    def parts(self):
        """The streams, the files, the parts of each, the words, and the signs of each."""
        yield list(self.streams._asdict().items()), lambda left: self._replace(streams=Streams(**dict(left)))
        yield list(self.files), lambda left: self._replace(files={name: self.files[name] for name in left})
        for name, file in self.files.items():
            for part, put in file.parts():
                yield part, lambda left, name=name, put=put: self._replace(files=self.files | {name: put(left)})
        for part, put in self.stdin.parts():
            yield part, lambda left, put=put: self._replace(stdin=put(left))
        yield self.words, lambda left: self._replace(words=left)
        for at, word in enumerate(self.words):
            yield word, lambda left, at=at: self._replace(words=[*self.words[:at], left, *self.words[at + 1 :]])

    def shown(self):
        """The case as commands of a shell, which also make its files, and the records of its logs."""
        lines, told = [], b""
        for name, file in self.files.items():
            data = file.data()
            lines.append(f"mkdir {quoted(name)}" if data is None else f"{printing(data)} >{quoted(name)}")
            told += file.told()
        piped = f"{printing(self.stdin.data())} | " if self.stdin.data() else ""
        lines.append(piped + self.streams.shown(" ".join(["vtools", *map(quoted, self.words)])))
        records = (told + self.stdin.told())[:MOST_TOLD].decode(errors="backslashreplace")
        return "\n".join(lines) + (f"\nwith the records\n{records}".rstrip() if records else "")


def empty(folder):
    """Takes away what lies in a folder."""
    for path in folder.iterdir():
        shutil.rmtree(path) if path.is_dir() else path.unlink()


def quoted(word):
    """A word for a shell."""
    if word.isprintable():
        return shlex.quote(word)
    return "$" + spelled(os.fsencode(word)).replace("%%", "%")


def printing(data):
    """A command of a shell that prints bytes."""
    text = spelled(data)
    if len(text) <= MOST_SPELLED:
        return f"printf {text}"
    return f"echo {base64.b64encode(gzip.compress(data)).decode()} | base64 -d | gunzip"


def spelled(data):
    """Bytes as an argument of printf."""
    signs = {byte: chr(byte) for byte in range(32, 127)}
    signs |= {ord("%"): "%%", ord("\\"): r"\\", ord("'"): r"\047", ord("\n"): r"\n"}
    text = "".join(signs.get(byte, f"\\{byte:03o}") for byte in data)
    return "'" + (r"\055" + text[1:] if text.startswith("-") else text) + "'"
