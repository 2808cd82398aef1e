"""Runs the examples of docs/man/ and of COMING_FROM_VARNISH that show what is printed, from their own text.

Each example has a folder of its own, and bash runs its commands there, so they may have pipes and write files. Those of
man pages find the programs by their names, and what they need of examples/ by the names that FILES has; those of
COMING_FROM_VARNISH find `bin/` and `examples/`, and may leave out the empty line behind a last group. An example that
runs neither program, or one of Varnish's, is passed over. Each option of a page's tool stands in an example of the page
that was run.
"""

import re
import shlex
import shutil

import options
from checks.docs import PAGES, read
from checks.running import TOP, Failed, run, temporary_folder

DOCUMENTS = ("docs/COMING_FROM_VARNISH.md",)
FILES = {
    **{"log": "real-1.vslog", "traffic": "real-1.raw"},
    **{name: name for name in ("varnish.vsl", "varnish.raw", "varnish-7.7.vsl", "json.sed")},
}
OF_PAGES = re.compile(r"^\.PP\n\.nf\n\.RS\n(\$ .*?)\n\.RE\n\.fi$", re.DOTALL | re.MULTILINE)
OF_DOCUMENTS = re.compile(r"^```text\n(\$ .*?)\n```$", re.DOTALL | re.MULTILINE)
OF_VARNISH = re.compile(r"\bvarnish(d|adm|log|ncsa|top|stat)\b")
MARKS = {
    **{"\\(aq": "'", "\\(dq": '"', "\\(ti": "~", "\\(ha": "^", "\\(ga": "`"},
    **{"\\-": "-", "\\ ": " ", "\\&": "", "\\e": "\\"},
}
SETTINGS = 'export LC_ALL=C PATH="$PWD/bin:$PATH"; '


def plain(text):
    """The text of a page as it is shown."""
    return re.sub(r"\\\(..|\\.", lambda mark: MARKS[mark.group()], text)


def options_of(page):
    """The options that the tool of a page has, and for a program the word that prints its version."""
    tool = page.removeprefix("vtools-")
    taken = options.names_of(tool)
    return [*taken, "--version"] if tool in PAGES.values() else taken


def commands(example):
    """Each command of an example, and the lines that it prints."""
    for line in example.split("\n"):
        if line.startswith("$ "):
            yield line[2:], (printed := [])
        else:
            printed.append(line)


def runs_of(command):
    """The words of each program that a command runs."""
    lexer = shlex.shlex(command, posix=True, punctuation_chars="|;&<>")
    lexer.whitespace_split, lexer.commenters = True, ""
    runs = [[]]
    try:
        for word in lexer:
            if set(word) <= set("|;&"):
                runs.append([])
            else:
                runs[-1].append(word)
    except ValueError as error:
        raise Failed(f"{command}: {error}") from None
    return [words for words in runs if words]


def can_be_run(example, programs):
    """Whether a program of ours is run in an example, and none of Varnish."""
    all_runs = [words for command, _ in example for words in runs_of(command)]
    others = [word for words in all_runs if words[0] not in programs for word in words]
    return any(words[0] in programs for words in all_runs) and not any(map(OF_VARNISH.search, others))


def examples(blocks, programs):
    """The commands of each example that can be run."""
    return [example for block in blocks if can_be_run(example := list(commands(block)), programs)]


def run_example(name, example, folder, last_line=()):
    """Runs the commands of an example in a folder. What is printed may have a last line that isn't shown."""
    for command, wanted in example:
        came = run(["bash", "-c", SETTINGS + command], folder)
        got = (came.stdout + came.stderr).decode().split("\n")[:-1]
        if got not in (wanted, [*wanted, *last_line]):
            raise Failed(f"{name}: {command}: {got}, not {wanted}")


def link_programs(programs, folder):
    """Puts the programs into a folder."""
    (folder / "bin").mkdir()
    for name, path in programs.items():
        (folder / "bin" / name).symlink_to(path)


def has_option(words, option):
    """Whether a run of a program has an option, as a word or as a letter."""
    pattern = re.compile(option if option.startswith("--") else rf"-[a-zA-Z1]*{option[1:]}.*")
    return any(map(pattern.fullmatch, words[1:]))


def run_page(programs, page):
    """Runs the examples of a page, and answers how many commands there are."""
    name, tool, ran, count = f"docs/man/{page}.1", page.removeprefix("vtools-"), [], 0
    for example in examples(map(plain, OF_PAGES.findall(read(name))), programs):
        with temporary_folder() as folder:
            link_programs(programs, folder)
            for short, file in FILES.items():
                shutil.copy(TOP / "examples" / file, folder / short)
            run_example(name, example, folder)
        ran += [words for command, _ in example for words in runs_of(command)]
        count += len(example)
    own = [words for words in ran if words[0] == PAGES[page] and tool in (words[0], *words)]
    for option in options_of(page):
        if not any(has_option(words, option) for words in own):
            raise Failed(f"{name}: no example of {option} is run")
    return count


def run_document(programs, name):
    """Runs the examples of a document, and answers how many commands there are."""
    count = 0
    for example in examples(OF_DOCUMENTS.findall(read(name)), [f"bin/{program}" for program in programs]):
        with temporary_folder() as folder:
            link_programs(programs, folder)
            (folder / "examples").symlink_to(TOP / "examples")
            run_example(name, example, folder, last_line=[""])
        count += len(example)
    if count == 0:
        raise Failed(f"{name} has no example")
    return count


def check(program, vslog):
    if {page.name for page in (TOP / "docs/man").iterdir()} != {f"{page}.1" for page in PAGES}:
        raise Failed(f"the pages of docs/man are not {', '.join(PAGES)}")
    programs = {"vtools": program, "vslog": vslog}
    count = sum(run_page(programs, page) for page in PAGES) + sum(run_document(programs, name) for name in DOCUMENTS)
    return f"{count} examples"
