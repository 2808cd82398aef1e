"""Checks the documents beside the repository: crates, promises, version, messages, edits, and what is cited."""

import functools
import os
import re
import subprocess
import sys

import completion
import definitions
import options
import tables
from checks.running import TOP, Failed

# Each man page with the program that it is of.
PAGES = {
    **{page: "vtools" for page in ("vtools", *[f"vtools-{command}" for command in options.COMMANDS])},
    "vslog": "vslog",
}
DOCUMENTS = [
    *["README.md", "CHANGELOG.md", "CONTRIBUTING.md", "docs/ARCHITECTURE.md", "docs/PROOF.md", "docs/FORMATS.md"],
    *["docs/DECISIONS.md", "docs/GUIDE.md", "docs/COMING_FROM_VARNISH.md", "docs/SPEED.md"],
    *[f"docs/man/{page}.1" for page in PAGES],
]
# The index of the formats, and the folder of its pages.
FORMATS, FORMATS_PAGES = "docs/FORMATS.md", "docs/formats"
# Titles in quotes, with commas between them, that stand behind or before the name of the index.
TITLES = r'"[^"]{2,60}"(?:(?:,| and|, and) "[^"]{2,60}")*'
CITED = re.compile(rf'FORMATS(?:\]\([^)]*\))?, ({TITLES})|({TITLES}) in \[?FORMATS')
# What is no text of the repository's own: what is made, and the data of examples, cases and programs.
NO_TEXT = re.compile(r"(\.git|bin|examples)/|.*/out/|cases/[^/]*/|crates/[^/]*/data/|docs/DEFINITIONS\.md")
NUMBERED = re.compile(
    r"(^|[^A-Za-z0-9_])"
    r"(D[0-9]{1,2}|T[1-5]\.[0-9]+|W[0-9]{1,2}|R(1?[0-9]|20)[a-z]?|F(18|19|20)|L(1?[0-9]))"
    r"([^A-Za-z0-9_]|$)"
)
OUTSIDE = re.compile(r"\.\./share[d]|(^|[^A-Za-z0-9_.])/wor[k]([^A-Za-z0-9_]|$)")


def read(name):
    return (TOP / name).read_text()


def found(pattern, text):
    """What a pattern has in its only group, at each line of the text that it fits."""
    return re.findall(pattern, text, re.M)


def between(text, begin, end):
    """The lines from the first that one pattern fits up to the next that another fits, with both."""
    lines, taken = text.splitlines(), []
    for line in lines:
        if taken or re.match(begin, line):
            taken.append(line)
            if len(taken) > 1 and re.match(end, line):
                break
    return taken


def documents():
    for name in DOCUMENTS:
        if not (TOP / name).is_file() or not read(name):
            raise Failed(f"{name} is missing")
    return len(DOCUMENTS)


def formats():
    """The text of each page of the formats, by its name in docs/."""
    return {f"formats/{path.name}": path.read_text() for path in sorted((TOP / FORMATS_PAGES).glob("*.md"))}


def headings(text):
    """The titles of a document: of its lines that begin with number signs, outside of code."""
    return found(r"^#+ (.*)$", re.sub(r"^```.*?^```$", "", text, flags=re.M | re.S))


def anchor(title):
    """The name by which a link finds a title in its document."""
    return re.sub(r"[^\w\- ]", "", title.lower()).replace(" ", "-")


@functools.cache
def all_files():
    """The files of the repository's own text: their names, each with its bytes as characters."""
    names = ((path, path.relative_to(TOP).as_posix()) for path in sorted(TOP.rglob("*")))
    own = [(path, name) for path, name in names if not NO_TEXT.match(name) and path.is_file()]
    return [(name, path.read_bytes().decode("latin-1")) for path, name in own]


def sections():
    """The index has each section of the pages of formats, and each that is cited; no page is without a row."""
    pages, titles = formats(), []
    rows = re.findall(r"^\| \[.*?\]\((.*?)\) \|.*\| (.*) \|$", read(FORMATS), re.M)
    if [name for name, _ in rows if name not in pages] or len(rows) != len(pages):
        raise Failed(f"the rows of {FORMATS} are not those of the pages in {FORMATS_PAGES}")
    for name, cell in rows:
        listed = re.findall(r'"(.*?)"', cell)
        first, *others = headings(pages[name])
        if listed not in ([first, *others], others):
            raise Failed(f"{FORMATS} has other sections of {name} than the page")
        titles += listed
    if len(set(titles)) != len(titles):
        raise Failed(f"{FORMATS} has a section twice")
    for name, text in all_files():
        for behind, before in CITED.findall(re.sub(r"\s*\n\s*(?://[/!]?|--|#)?\s*", " ", text)):
            for title in re.findall(r'"(.*?)"', behind or before):
                if title not in titles:
                    raise Failed(f'{name} cites the section "{title}" of the formats, which {FORMATS} has not')
    return len(titles)


def links():
    """Each link of a document leads to a file that is there, and to a title of it."""
    count, texts = 0, {name: read(name) for name in DOCUMENTS if name.endswith(".md")}
    texts.update((f"docs/{name}", text) for name, text in formats().items())
    for name, text in texts.items():
        plain = re.sub(r"^```.*?^```$|`[^`\n]*`", "", text, flags=re.M | re.S)
        for target in re.findall(r"\]\(([^)\s]+)\)", plain):
            file, _, place = target.partition("#")
            path = (TOP / name).parent / file if file else TOP / name
            if re.match(r"[a-z]+:", target):
                continue
            if not path.exists():
                raise Failed(f"{name} has a link to {target}, which is missing")
            if place and place not in map(anchor, headings(path.read_text())):
                raise Failed(f"{name} has a link to {target}, and {file or name} has no such title")
            count += 1
    return count


def made():
    """The tables of the source are as they would be made."""
    for path, text in tables.all_made():
        if path.read_text() != text:
            raise Failed(f"{path.relative_to(TOP)} is not what `tools/tables.py --write` writes")


def crates():
    """Each crate of crates.txt is named in PROOF and ARCHITECTURE, whose picture has it above those it stands on."""
    lines = re.findall(r"^([a-z0-9_]+)(?: staticlib)?:(.*)$", read("crates.txt"), re.M)
    uses = {name: low.split() for name, low in lines}
    if not uses:
        raise Failed("crates.txt names no crate")
    rows = between(read("docs/ARCHITECTURE.md"), "## Who stands on whom$", r"\*\*")
    drawn = [name for row in reversed(rows) if row.startswith(" ") for name in row.split() if name in uses]
    for name in uses:
        for file in "docs/PROOF.md", "docs/ARCHITECTURE.md":
            if f"`{name}`" not in read(file):
                raise Failed(f"{file} does not name the crate {name}")
        if drawn.count(name) != 1:
            raise Failed(f"the picture of docs/ARCHITECTURE.md does not have the crate {name} once")
        above = [low for low in uses[name] if low in drawn[drawn.index(name) :]]
        if above:
            raise Failed(f"the picture of docs/ARCHITECTURE.md has {name} below {above[0]}, on which it stands")
    return len(uses)


def functions(crate):
    """The functions of a crate's source: the words of the impl or trait round each, its name, and its clauses."""
    every = []
    for file in (TOP / "crates" / crate / "src").rglob("*.rt"):
        owner = []
        for line in file.read_text().splitlines():
            if re.match(r"(impl|pub trait)\b", line):
                owner = re.findall(r"\w+", line)
            elif line == "}":
                owner = []
            elif function := re.match(r"\s*(?:pub(?:\(crate\))? )?fn (\w+)", line):
                every.append((owner, function[1], set()))
            elif clause := re.match(r"\s*ensures (\w+) \{", line):
                every[-1][2].add(clause[1])
    return every


def rows_of(text, heading):
    """The cells of the rows of the first table behind a heading."""
    rows = [line for line in between(text, re.escape(heading) + "$", "##") if line.startswith("|")]
    return [[cell.strip() for cell in row.strip("|").split("|")] for row in rows[2:]]


def cited_definitions(text):
    """Each definition of PROOF's first table is in a file that stands beside it."""
    count = 0
    for names, places, _ in rows_of(text, "## The theorem of `vtools`"):
        specs = [read(f"crates/{crate}/specs/{file}.antt") for crate, file in re.findall(r"`(\w+)`, (\w+)", places)]
        for name in re.findall(r"`(\w+)`", names):
            count += 1
            if not any(re.search(rf"^ *(abbrev )?pub (record |data )?{name} ", spec, re.M) for spec in specs):
                raise Failed(f"docs/PROOF.md has the definition {name} in {places}, where it isn't")
    return count


def promises(text):
    """Each call of PROOF's other table is one of the crates beside it, and has the clauses that stand behind it."""
    count, crates_named = 0, []
    for crates_cell, _, calls in rows_of(text, "## Which call carries which promise"):
        crates_named = re.findall(r"`(\w+)`", crates_cell) or crates_named
        every = [function for crate in crates_named for function in functions(crate)]
        for part in calls.split(";"):
            names, _, clauses = part.partition("`: ")
            wanted = set(re.findall(r"`(\w+)`", clauses))
            for name in re.findall(r"`([\w:]+)`", names + "`"):
                count += 1
                owner, _, call = name.rpartition("::")
                alike = [has for of, it, has in every if it == call and (not owner or owner in of)]
                if not any(wanted <= has for has in alike):
                    raise Failed(f"docs/PROOF.md has{part} in {', '.join(crates_named)}, where it isn't")
    return count


def changes():
    """Each file of the table of changes in ARCHITECTURE is there, and has the names that stand behind it."""
    count = 0
    for change, specs, code, _ in rows_of(read("docs/ARCHITECTURE.md"), "## Where a change goes"):
        parts = [(it, "specs", ".antt") for it in specs.split(";")] + [(it, "src", "") for it in code.split(";")]
        for part, folder, ending in parts:
            text = None  # of the file whose names stand behind its colon
            for name, colon in re.findall(r"`([\w./]+)`(:?)", part):
                count += 1
                crate, slash, file = name.partition("/")
                if slash:
                    path = f"crates/{crate}/{folder}/{file}{ending}"
                    if not (TOP / path).is_file():
                        raise Failed(f"docs/ARCHITECTURE.md has {path} for {change}, and there is none")
                    text = read(path) if colon else None
                elif text and not re.search(rf"\b{re.escape(name)}\b", text):
                    raise Failed(f"docs/ARCHITECTURE.md has {name} for {change}, which is not in {path}")
    return count


def paths():
    """Each path that the pages for maintainers and sceptics name is there."""
    count = 0
    for page in "CONTRIBUTING.md", "docs/ARCHITECTURE.md", "docs/PROOF.md":
        for path in re.findall(r"`((?:bench|cases|completion|crates|docs|examples|tools|wrong)/[\w./-]+)", read(page)):
            count += 1
            if "NAME" not in path and path != "docs/DEFINITIONS.md" and not (TOP / path.rstrip(".")).exists():
                raise Failed(f"{page} names {path}, and there is none")
    return count


def printed_by(program):
    """The version that a program prints."""
    return found(rf'^const VERSION: &str = "({program} .*)\\n";$', read(f"crates/{program}/src/answers.rt"))[0]


def version():
    """The newest release of CHANGELOG is what each program prints that it names; FORMATS and man pages have it."""
    page = f"{FORMATS_PAGES}/command-line.md"
    release = re.search(r"^## ([0-9][0-9.]*), ([0-9-]*)$(.*?)(?=^## |\Z)", read("CHANGELOG.md"), re.M | re.S)
    number, date, said = release.groups()
    printed = {name: printed_by(name) for name in PAGES.values()}
    for name, version in printed.items():
        if f"`{name}` " in said and f"{name} {number}" != version:
            raise Failed(f"CHANGELOG.md has the release {number}, and the program is {version}")
        if f"`{name} --version` prints `{version}`." not in read(page).splitlines():
            raise Failed(f"{page} has not the version {version}")
    for page, name in PAGES.items():
        if f'"{date}" "{printed[name]}"' not in read(f"docs/man/{page}.1").split("\n")[0]:
            raise Failed(f'the header of {page}.1 has not "{date}" "{printed[name]}"')
    return 2 * len(printed) + len(PAGES)


def messages():
    """Each text of a message has a row in FORMATS with words that bring it, and of vslog with its cause."""
    faults = found(r"^(?:usage_message|query_message|message) (.*)", read("crates/varnish_tools/specs/Faults.antt"))
    faults += found(r"^overrun_message (.*)", read("crates/fan_output/specs/Messages.antt"))
    texts = {text.lstrip(": ") for line in faults for text in re.findall(r'codes "([^"]*)"', line)} - {""}
    texts |= set(found(r'eprintln!\(rt; "\{program\}: ([^{"]*[^{"])', read("crates/system_world/src/answers.rt")))
    all_codes = found(r'codes "([^"]*)"', read("crates/vslog/specs/Messages.antt"))
    of_vslog = {text.lstrip(": ") for text in all_codes} - {"vslog: ", "vslog:", "\\n", ""}
    of_vtools = "messages", "## Errors as a person reads them"
    for wanted, (page, title) in (texts, of_vtools), (of_vslog, ("varnish-log", "## What vslog says")):
        rows = between(read(f"{FORMATS_PAGES}/{page}.md"), title, "##")
        table = "\n".join(row for row in rows if row.startswith("|"))
        if not wanted:
            raise Failed("the source has no messages")
        for text in sorted(wanted):
            if text not in table:
                raise Failed(f"{FORMATS_PAGES}/{page}.md has no row of the message `{text}` under {title}")
    return len(texts) + len(of_vslog)


def formatters():
    """Each formatter of an access line has a row in FORMATS and one on the page of varnishncsa."""
    rows = set(found(r"^\| `(%[^`]+)` \|", read(f"{FORMATS_PAGES}/access-lines.md")))
    lines = found(r"^\.TP\n\.BI? (%.*)$", read("docs/man/vtools-varnishncsa.1"))
    on_page = {line.replace(" ", "").replace("\\-", "-") for line in lines}
    named = [text.replace("[field]", "[n]") for text, _ in completion.variants("Formatter")]
    for name in named:
        if name not in rows or name not in on_page:
            raise Failed(f"the formatter {name} has no row in {FORMATS_PAGES}/access-lines.md, or none in vtools-varnishncsa.1")
    return len(named)


def edits():
    """Each file that an edit of a wrong body changes is there."""
    files = [edit for top in ("crates", "wrong") for edit in (TOP / top).rglob("*.edit")]
    all_edits = [edit for edit in files if "/out/" not in str(edit)]
    for edit in all_edits:
        folder = edit.parent.parent if edit.parent.name == "must-fail" else edit.parent
        changed = found(r"^file: (.*)$", edit.read_text())
        if not changed:
            raise Failed(f"{edit.relative_to(TOP)} names no file")
        for name in changed:
            if not (TOP / "crates" / folder.name / name).is_file():
                raise Failed(f"{edit.relative_to(TOP)} changes crates/{folder.name}/{name}, which is missing")
    return len(all_edits)


def citations():
    """No file cites a numbered paper, or a path outside the repository."""
    for name, text in all_files():
        for pattern, what in (NUMBERED, "cites a number"), (OUTSIDE, "names a path outside the repository"):
            if re.search(pattern.pattern, text, re.M):
                lines = [f"{at}: {line}" for at, line in enumerate(text.split("\n"), 1) if pattern.search(line)]
                raise Failed("\n".join([f"{name} {what}:", *lines[:5]]))
    return len(all_files())


def choices():
    """Each choice of DECISIONS names definitions of specs/, or items of src/, that state it."""
    stated = {name for spec in definitions.Index().specs for name in (*spec.items, *spec.constructors)}
    for path in (TOP / "crates").glob("*/src/**/*.rt"):
        stated.update(found(r"\b(?:fn|const|static) (\w+)", path.read_text()))
    rows = found(r"^\| .* \| ((?:`[^`]+`(?:, )?)+) \|$", read("docs/DECISIONS.md"))
    if not rows:
        raise Failed("docs/DECISIONS.md has no choices")
    for name in re.findall(r"`([^`]+)`", "\n".join(rows)):
        if name not in stated:
            raise Failed(f"docs/DECISIONS.md has a choice that `{name}` states, which is neither in specs/ nor in src/")
    return len(rows)


def benches():
    """Each bench can be read: what it takes from the reference scripts is there."""
    names = sorted(path.stem for path in (TOP / "bench/benches").glob("*.py"))
    call = "import importlib, sys\nfor name in sys.argv[1:]: importlib.import_module('benches.' + name)"
    path = os.pathsep.join([str(TOP / "bench"), str(TOP / "tools/reference")])
    words = [sys.executable, "-B", "-c", call, *names]
    read = subprocess.run(words, env={**os.environ, "PYTHONPATH": path}, stderr=subprocess.PIPE, text=True)
    if read.returncode:
        raise Failed(f"a bench can't be read:\n{read.stderr}")
    return len(names)


def check(_):
    made()
    proof = read("docs/PROOF.md")
    cited = cited_definitions(proof) + promises(proof) + changes() + paths()
    counts = documents(), sections(), links(), crates(), cited, version(), messages(), formatters(), edits()
    counts += choices(), benches(), citations()
    return (
        "%d documents, %d sections of formats, %d links, %d crates, %d names, %d places of the version, %d messages, "
        "%d formatters, %d edits, %d choices, %d benches, %d files" % counts
    )
