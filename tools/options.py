#!/usr/bin/env python3
"""The commands and the options of vtools and vslog, from rows of the source and the lines above each row.

Usage: tools/options.py            prints a line of command, option and kind for each
       tools/options.py --write    writes what is made of the rows
       tools/options.py --check    says whether that stands as it would be written; the status is 1 where it doesn't

The rows stand in commands.rt and options.rt of crates/tool_words/src, and those of vslog in options.rt of
crates/vslog/src. Made are, in help.rt of crates/vtools/src, of `HELP` the usage, the paragraph of sentences, those of
options and the examples, and the help of each command; of vslog's help its usage, sentence, example and options; the
cases of all these; the tables of docs/formats/command-line.md and of docs/COMING_FROM_VARNISH.md; and SYNOPSIS and
OPTIONS of docs/man/*.1. In helps of commands and in documents they stand between two comments. tools/completion.py
makes the completion of the same rows, tools/tables.py the tables of docs/formats that are of no options.

For the options before the command the command is `vtools`. The kind is `flag`, `value` (the option takes one) or
`absent` (an option of Varnish that is left out).

Lines above a command: `usage:` the whole command line, with a letter or a name in the place of each option; `does:`
what it does, as a sentence without its name and its full stop; `behind:` what the program's help says behind this
sentence; `example:` a command line, and below it what that prints. A program without commands has them too. What stands
before the tool is `[OPTIONS]` there; its own usage stands above its table.

Lines above an option: `OPTION VALUE` and what the help says of it, in the help's own lines; `page:` for the man pages;
`varnish:` for how it is beside Varnish's own, for each tool or for all, and how it differs; `instead:` for what to do
where it is left out. A text goes on in lines that are indented. A line that ends with a colon, and an empty one, begin
a paragraph of the help. What the help says of an option is said of all rows of its name that have no such lines; what
ends with `; not of TOOL` is left out of the help of this tool. It proves nothing.
"""

import functools
import re
import sys
import textwrap
from pathlib import Path

TOP = Path(__file__).resolve().parent.parent
CRATES = TOP / "crates"
COMMAND_SOURCE = CRATES / "tool_words/src/commands.rt"
SOURCE = CRATES / "tool_words/src/options.rt"
SOURCES = {"vtools": SOURCE, "vslog": CRATES / "vslog/src/options.rt"}
HELPS = {"vtools": CRATES / "vtools/src/help.rt", "vslog": CRATES / "vslog/src/help.rt"}
COMMAND_LINE = TOP / "docs/formats/command-line.md"
COMING_FROM = TOP / "docs/COMING_FROM_VARNISH.md"
HELP_COLUMNS = 80
OPTION_COLUMNS = {"vtools": 20, "vslog": 12}  # where the help says what an option does
KINDS = {"Flag": "flag", "Value": "value", "NotHere": "absent"}
VARIANT = re.compile(r"CommandName::\w+(?:\(\w+::\w+\))?")
SETS = re.compile(r"^const (\w+): Commands = &\[(.*?)\];$", re.M | re.S)
USAGE = re.compile(r"^/// usage: (\w+ .*)$", re.M)
NAME = re.compile(r"--[a-z-]+|(?<![\w-])[A-Za-z1](?![\w-])|[A-Z]{2,}")
TABLE = re.compile(r"^pub static ([A-Z]+): \[[^\n]*; (\d+)\] = \[\n(.*?)^\];", re.M | re.S)
PROGRAM = re.compile(r'((?:^// [^\n]*\n)+)/// [^\n]*\npub const PROGRAM: &str = ("\w+");$', re.M)
ROW = re.compile(r"\((?:b'(.)'|\"([\w-]+)\"), (?:(\w+), )?([A-Z].*)\),")
MEANING = re.compile(r"(\w+)(?:\(Choice::(\w+)(?:, (?:Form::)?(\w+)(?:\(\d+\))?)?\))?|Choice::(\w+)")
LABEL = re.compile(r"(`[^`]*`|\w+:)(?: |$)")
FORM = re.compile(r"^    /// ([^\n]*)\.\n    (\w+)(?:\(u32\))?,$", re.M)
RANGE = re.compile(r"^        Choice::(\w+) => \(([\d_]+), ([\d_]+)\),$", re.M)
HELP = re.compile(r'^(pub const HELP: &str = "\\\n)(.*?)(?=^";$)', re.M | re.S)


def refuse(what):
    """Ends the run with what is wrong."""
    sys.exit(f"options: {what}")


def in_source(path):
    """The name of a file for a message."""
    return path.relative_to(CRATES)


class Row:
    """A row: its name, and the texts above it by their labels."""

    LABELS = ()

    def __init__(self, path, name, comments):
        self.name, self.texts = name, {}
        for comment in comments:
            if comment.startswith("  ") and self.texts:
                last.append(comment.strip())
                continue
            label = LABEL.match(comment)
            if not label or label[1] in self.texts or (label[1] not in self.LABELS and label[1][0] != "`"):
                refuse(f"{in_source(path)}: above {name}: {comment}")
            last = self.texts[label[1]] = [comment[label.end() :]] if label.end() < len(comment) else []

    def of(self, label):
        """A text of the row, as one line."""
        return " ".join(self.texts.get(label, []))


class Command(Row):
    """A command of vtools, or a program without commands: its usage, what it does, and an example."""

    LABELS = ("usage:", "does:", "behind:", "example:")

    def __init__(self, path, name, variant, comments):
        super().__init__(path, name, comments)
        self.variant, self.does = variant, self.of("does:")
        self.usage = self.of("usage:")
        lacks = [label for label in self.LABELS if not self.of(label) and label != "behind:"]
        if lacks or not re.match(rf"(vtools .*)?\b{name}\b", self.usage) or len(self.texts["example:"]) < 2:
            refuse(f"{in_source(path)}: above {name}: no {', '.join(lacks) or 'usage or example in full'}")
        self.run, *printed = self.texts["example:"]
        self.prints = " ".join(printed)
        self.is_tool = "[OPTIONS]" in self.usage
        self.has_log = self.is_tool and "-r" in names_of(name)

    def constant(self):
        """The name of its help in the source."""
        return re.findall(r"\w+", self.variant)[-1].upper() + "_HELP"

    def sentence(self):
        """What it does, as a sentence."""
        return f"{self.name} {self.does}."

    def example(self):
        """Its example, as the help has it."""
        return f"  {self.run}\n      {self.prints}"


class Option(Row):
    """A row: its tools, name, kind, choice, form and texts, and the paragraph of the help that it stands in."""

    LABELS = ("page:", "varnish:", "instead:")

    def __init__(self, path, found, comments, having, paragraph):
        letter, word, _, meaning = found
        super().__init__(path, word or f"-{letter}", comments)
        self.tools, self.paragraph = having, paragraph
        self.helps = {label.strip("`"): lines for label, lines in self.texts.items() if label[0] == "`"}
        self.value = next(iter(self.helps), "").partition(" ")[2]
        kind, self.choice, self.form, choice = MEANING.fullmatch(meaning).groups()
        self.choice = self.choice or choice
        self.kind = KINDS[kind] if kind else "value" if self.value else "flag"

    def does(self):
        """What the option does, as the help has it."""
        said = {words: " ".join(lines) for words, lines in self.helps.items() if lines}
        return "; ".join(f"{words} {text}" if len(said) > 1 else text for words, text in said.items())

    def words(self):
        """The option with the name of its value."""
        return f"{self.name} {self.value}".strip()


def rows_of(path, tables):
    """The rows of these tables: of each what its form has, the lines above it, and the paragraph that it stands in."""
    paragraph, met = 0, []
    for name, count, body in TABLE.findall(path.read_text()):
        if name not in tables:
            continue
        comments, before = [], len(met)
        for line in map(str.strip, body.splitlines()):
            if line == "//":
                comments, paragraph = [], paragraph + 1
            elif line.startswith("//"):
                comments.append(line[3:])
            else:
                row = ROW.fullmatch(line) or refuse(f"{in_source(path)}: a row has another form: {line}")
                met.append((row.groups(), comments, paragraph))
                comments = []
        if len(met) - before != int(count):
            refuse(f"{in_source(path)}: {name} has not {count} rows")
    return met or refuse(f"{in_source(path)}: no table")


COMMAND_ROWS = [(row, comments) for row, comments, _ in rows_of(COMMAND_SOURCE, ["COMMANDS"])]
COMMANDS = {name: variant for (_, name, _, variant), _ in COMMAND_ROWS}
TOOLS = tuple(name for name, variant in COMMANDS.items() if variant.startswith("CommandName::Tool("))
PAGES = {name: TOP / f"docs/man/vtools-{name}.1" for name in COMMANDS} | {
    program: TOP / f"docs/man/{program}.1" for program in HELPS
}


@functools.cache
def all_options(program="vtools"):
    """The options of a program."""
    path = SOURCES[program]
    by_variant = {variant: name for name, variant in COMMANDS.items()}
    sets = {
        name: tuple(by_variant[variant] for variant in VARIANT.findall(having))
        for name, having in SETS.findall(path.read_text())
    }
    return [
        Option(path, row, comments, sets[row[2]] if row[2] else (program,), paragraph)
        for row, comments, paragraph in rows_of(path, ["LETTERS", "WORDS"])
    ]


def options_of(program):
    """The options of a program, or those of a command's program."""
    return all_options("vslog" if program == "vslog" else "vtools")


def here(command):
    """The options that a command takes."""
    return [option for option in options_of(command) if command in option.tools and option.kind != "absent"]


def names_of(command):
    """The names of the options that a command takes."""
    return [option.name for option in here(command)]


@functools.cache
def all_commands():
    """The commands of vtools, in their order, by their names."""
    return {row[1]: Command(COMMAND_SOURCE, row[1], row[3], comments) for row, comments in COMMAND_ROWS}


@functools.cache
def vslog():
    """The program vslog, as a command."""
    path = SOURCES["vslog"]
    comments, name = PROGRAM.search(path.read_text()).groups()
    return Command(path, name.strip('"'), name, [line[3:] for line in comments.splitlines()])


def form_words(name):
    """What a form of values is, by the comment of the form."""
    forms = {form: comment for comment, form in FORM.findall(SOURCE.read_text())}
    return forms.get(name) or refuse(f"{SOURCE.name}: no form {name}")


def check_ranges():
    """Asks that the help and the page of each option with a number have its range."""
    ranges = {choice: (int(low), int(high)) for choice, low, high in RANGE.findall(SOURCE.read_text())}
    for option in all_options():
        if option.form == "Number":
            low, high = ranges.get(option.choice) or refuse(f"{SOURCE.name}: no range of {option.choice}")
            if f"{low} to {high}" not in option.does() or f"{low:,} to {high:,}" not in option.of("page:"):
                refuse(f"{SOURCE.name}: the texts of {option.name} have not the range {low} to {high}")


def usage_of(command, shown):
    """The usage of a command or of a program, or of what stands before a tool, with each option as it is shown."""
    if command == "vtools":
        usage = USAGE.search(SOURCE.read_text())[1].removeprefix("vtools ")
    else:
        usage = (vslog() if command == "vslog" else all_commands()[command]).usage
        usage = re.sub(rf"^(vtools (\[OPTIONS\] )?)?{command} ?", "", usage)
    named = {option.name if option.name.startswith("--") else option.name[1]: option for option in here(command)}
    told = {name for name, option in named.items() if option.value or option.does()}
    if sorted(name for name in NAME.findall(usage) if not name[1:].isupper()) != sorted(told):
        refuse(f"the usage of {command} has not each of its options once")
    return NAME.sub(lambda name: shown(named.get(name[0], name[0])), usage)


def unbroken(usage):
    """A usage with bytes 0 for the blanks within brackets."""
    depth, made = 0, ""
    for byte in usage:
        depth += (byte in "[(") - (byte in "])")
        made += "\0" if byte == " " and depth > 0 else byte
    return made


def help_words(option):
    """An option in a usage of the help, with the name of its value, or the name of an operand."""
    return option if isinstance(option, str) else option.words().replace(" ", "\0")


def usage_lines(lines):
    """Usages in the help, in which no line is broken within brackets or within an option."""
    broken = textwrap.TextWrapper(HELP_COLUMNS - 8, subsequent_indent=" " * 7, break_on_hyphens=False)
    made = "\n".join(broken.fill(unbroken(line)) for line in lines)
    return "usage: " + made.replace("\0", " ").replace("\n", "\n" + " " * 7)


def help_usage(only=None):
    """The usage of a command, or of all."""
    before = f"vtools {usage_of('vtools', help_words)}"
    shown = [only] if only else list(all_commands().values())
    logs, others = [], []
    for command in shown:
        front = "vtools [OPTIONS]" if command.is_tool else "vtools"
        if only and command.is_tool and not command.has_log:
            front = before
        line = f"{front} {command.name} {usage_of(command.name, help_words)}".rstrip()
        (logs if command.has_log else others).append(line)
    fed = [f"{before} {only.name if only else 'TOOL'} .., as above without -r\0FILE"] if logs else []
    return usage_lines(logs + fed + others)


def in_help(words, lines, program="vtools"):
    """What the help says of an option, behind its words."""
    columns = OPTION_COLUMNS[program]
    made = [f"{'' if at else '  ' + words:<{columns}}{line}" for at, line in enumerate(lines)]
    if max(map(len, made)) > HELP_COLUMNS:
        refuse(f"the help of {words} is wider than {HELP_COLUMNS} columns")
    return made


def help_options(program="vtools"):
    """The paragraphs of options in the help of a program."""
    paragraphs = {}
    for option in all_options(program):
        for words, lines in option.helps.items():
            if lines:
                paragraphs.setdefault(option.paragraph, []).extend(in_help(words, lines, program))
    return ["\n".join(lines) for lines in paragraphs.values()]


def command_options(command):
    """What the help of a command says of its options, or that of vtools of those before it."""
    made, silent = [], []
    for option in here(command):
        same = [option, *(it for it in all_options() if it.name == option.name)]
        helps = next((it.helps for it in same if it.does()), {})
        for words, lines in helps.items():
            said, _, others = " ".join(lines).partition("; not of ")
            if said and others != command:
                columns = HELP_COLUMNS - OPTION_COLUMNS["vtools"]
                made += in_help(words, textwrap.wrap(said, columns) if others else lines)
        if not helps:
            silent.append(option.name)
    none = [f"Taken too, and of no effect: {', '.join(silent)}."] if silent else []
    return ["\n".join(made), *none] if made else none


def paragraph_of(paragraphs, begin):
    """The place of the one paragraph of a help that begins so."""
    found = [at for at, paragraph in enumerate(paragraphs) if paragraph.startswith(begin)]
    return found[0] if len(found) == 1 else refuse(f"the help has not one paragraph that begins with `{begin}`")


def command_help(text, command):
    """The help of a command, by the help of the program and the rows."""
    paragraphs, names = text.split("\n\n"), names_of(command.name)
    before = paragraphs[paragraph_of(paragraphs, "In the place of -r FILE, before the tool")].replace("\n", " ")
    if "-r" not in names:
        before = before.replace("In the place of -r FILE, before", "Before")
    rules = [paragraphs[paragraph_of(paragraphs, "The first -I or -X")]] if "-I" in names else []
    feeds = [textwrap.fill(before, HELP_COLUMNS), *command_options("vtools")] if command.is_tool else []
    return "\n\n".join([
        textwrap.fill(command.sentence(), HELP_COLUMNS),
        help_usage(command),
        *command_options(command.name),
        *rules,
        *feeds,
        f"An example:\n\n{command.example()}",
        paragraphs[paragraph_of(paragraphs, "Exit status")],
        f"Manual: man {PAGES[command.name].stem}.",
    ]) + "\n"


def with_options(paragraphs, made):
    """The paragraphs of a help with those of options made anew."""
    places = [at for at, paragraph in enumerate(paragraphs) if paragraph.startswith("  -")]
    if len(places) != len(made):
        refuse(f"the help has {len(places)} paragraphs of options, and not {len(made)}")
    for at, paragraph in zip(places, made):
        paragraphs[at] = paragraph
    return paragraphs


def vtools_help(text):
    """The help of vtools, with its usage, sentences, options and examples made anew."""
    paragraphs = with_options(text.split("\n\n"), help_options())
    commands = list(all_commands().values())
    said = " ".join(text for command in commands for text in (command.sentence(), command.of("behind:")) if text)
    paragraphs[paragraph_of(paragraphs, "usage: ")] = help_usage()
    paragraphs[paragraph_of(paragraphs, f"{commands[0].name} ")] = textwrap.fill(said, HELP_COLUMNS)
    examples = paragraph_of(paragraphs, "An example of each") + 1
    paragraphs[examples] = "\n".join(command.example() for command in commands)
    return "\n\n".join(paragraphs)


def vslog_help(text):
    """The help of vslog, with its usage, sentence, example and options made anew."""
    paragraphs, program = with_options(text.split("\n\n"), help_options("vslog")), vslog()
    said = f"{program.does[0].upper()}{program.does[1:]}. {program.of('behind:')}"
    usage = paragraph_of(paragraphs, "usage: ")
    paragraphs[usage] = usage_lines([f"vslog {usage_of('vslog', help_words)}"])
    paragraphs[usage + 1] = textwrap.fill(said, HELP_COLUMNS)
    paragraphs[usage + 2] = f"  {program.run}"
    if not paragraphs[usage + 3].replace("\n", " ").startswith(f"{program.prints}."):
        refuse("the help of vslog does not say behind its example what that prints")
    return "\n\n".join(paragraphs)


def all_helps():
    """The source of the helps, by its path, and the text of each help, by its command."""
    sources = {program: path.read_text() for program, path in HELPS.items()}
    texts = {program: HELP.search(source)[2] for program, source in sources.items()}
    helps = {"vtools": vtools_help(texts["vtools"]), "vslog": vslog_help(texts["vslog"])}
    made = {path: HELP.sub(lambda it: it[1] + helps[program], sources[program]) for program, path in HELPS.items()}
    commands = all_commands()
    helps |= {name: command_help(helps["vtools"], command) for name, command in commands.items()}
    rows = [f"    ({command.variant}, {command.constant()}),\n" for command in commands.values()]
    parts = [
        f"/// What `vtools NAME --help` prints of each command.\n"
        f"pub static HELPS: [(CommandName, &str); {len(rows)}] = [\n{''.join(rows)}];\n",
        *[
            f"/// What `vtools {name} --help` prints.\n"
            f'const {command.constant()}: &str = "\\\n{helps[name]}";\n'
            for name, command in commands.items()
        ],
    ]
    path = HELPS["vtools"]
    made[path] = in_comments(made[path], path, {"commands": "\n".join(parts).rstrip()}, "// @\n")
    return made, helps


def by_letter():
    """The options behind the tool, by their letters."""
    found = {}
    for option in all_options():
        if set(option.tools) & set(TOOLS):
            found.setdefault(option.name, []).append(option)
    return sorted(found.items(), key=lambda item: (item[0].lower(), item[0].isupper()))


def table_of(heads, rows):
    """A table, with its heads."""
    lines = [heads, *([cell.replace("|", "\\|") for cell in row] for row in rows)]
    made = ["|" + "".join(f" {cell} |" if cell else " |" for cell in line) for line in lines]
    return "\n".join([made[0], "|" + "---|" * len(heads), *made[1:]])


def in_cell(text):
    """A text of the help for a cell: with quotes round options, and stars that stay."""
    text = re.sub(r"(?<![\w`-])-(?:-?[A-Za-z1][\w-]*)?(?![\w-])", lambda option: f"`{option[0]}`", text)
    return text.replace("*", "\\*")


def letters_table():
    """The table of the options of the tools."""
    rows = []
    for name, options in by_letter():
        kinds = {tool: option.kind for option in options for tool in option.tools}
        told = [(option, option.does()) for option in options if option.does()]
        does = [text if len(told) == 1 else f"{' and '.join(option.tools)}: {text}" for option, text in told]
        rows.append([f"`{name}`", *(kinds.get(tool, "") for tool in TOOLS), in_cell("; ".join(does))])
    return table_of(["Option", *TOOLS, "What it does"], rows)


def words_table():
    """The table of the options before the tool."""
    rows = [[f"`{option.words()}`", option.kind, in_cell(option.does())] for option in here("vtools")]
    return table_of(["Option", "Kind", "What it does"], rows)


def beside_varnish(option):
    """How an option is beside Varnish's, for each of its tools, and what differs."""
    how, _, text = option.of("varnish:").partition(": ")
    if option.kind == "absent":
        how, text = "not here", option.of("instead:")
    each = how.split(", ")
    if not set(each) <= {"same", "differs", "added", "not here"} or len(each) not in (1, len(option.tools)):
        refuse(f"{SOURCE.name}: `varnish:` of {option.name} has another form")
    return dict(zip(option.tools, each * len(option.tools))), text


def varnish_table():
    """The table of the options beside Varnish's."""
    rows = []
    for name, options in by_letter():
        beside = [beside_varnish(option) for option in options]
        how = {tool: is_so for each, _ in beside for tool, is_so in each.items()}
        differs = "; ".join(text for _, text in beside if text)
        rows.append([f"`{name}`", *(how.get(tool, "") for tool in TOOLS), differs])
    return table_of(["Option", *TOOLS, "What differs, or what to do"], rows)


def roff(text):
    """A text for a man page, of which `this` is bold, and so is the name of a page, and *this* in italics."""
    text = text.replace("\\", "\\e").replace("-", "\\-")
    text = re.sub(r"\*([^*`]+)\*", r"\\fI\1\\fR", text)
    text = re.sub(r"`([^`]*)`|([\w\\-]+)(?=\(1\))", lambda found: f"\\fB{found[1] or found[2]}\\fR", text)
    return f"\\&{text}" if text[0] in ".'" else text


def shown_words(option):
    """An option with the name of its value, for a man page."""
    return roff(f"`{option.name}` *{option.value}*" if option.value else f"`{option.name}`")


def page_usage(command):
    """The usage of a command for its page. That of `vtools` has the options of feeds, which the others call FEEDS."""
    used = usage_of(command, lambda it: roff(f"*{it}*") if isinstance(it, str) else shown_words(it))
    if command == "vtools":
        return f"\\fBvtools\\fR {used} \\fITOOL\\fR [\\fIOPTIONS\\fR]"
    behind = f"\\fB{command}\\fR {used}"
    if command == "vslog":
        return behind
    row, over_feeds = all_commands()[command], "\\fBvtools\\fR \\fIFEEDS\\fR"
    if row.is_tool and not row.has_log:
        return f"{over_feeds} {behind}"
    fed = f"\n.br\n{over_feeds} \\fB{command}\\fR [\\fIOPTIONS\\fR]" if row.is_tool else ""
    return f"\\fBvtools\\fR {behind}{fed}"


def page_options(command):
    """The options of a command, for its page."""
    silent = [option.name for option in here(command) if not option.of("page:")]
    if silent:
        refuse(f"{command}: no `page:` of {', '.join(silent)}")
    return "\n".join(f".TP\n{shown_words(option)}\n{roff(option.of('page:'))}" for option in here(command))


def in_comments(text, path, parts, marks, maker="tools/options.py"):
    """A text of a file, with each part between two comments, which name what makes it."""
    for name, made in parts.items():
        begin, end = (marks.replace("@", line) for line in (f"made by {maker}: {name}", "made until here"))
        before, found, rest = text.partition(begin)
        _, ended, after = rest.partition(end)
        if not found or not ended:
            refuse(f"{path.relative_to(TOP)}: no comments round {name}")
        text = f"{before}{begin}{made}\n{end}{after}"
    return text


def between(path, parts, marks, maker="tools/options.py"):
    """The text of a file that is there, with each part between two comments."""
    if not path.is_file():
        refuse(f"{path.relative_to(TOP)} is missing")
    return in_comments(path.read_text(), path, parts, marks, maker)


def all_cases(helps):
    """The cases in which a help is printed: each file with its text."""
    folders = {"vtools": "words/help_is_printed", "vslog": "varnish_logs/help_of_vslog_is_printed"}
    for command, text in helps.items():
        folder = TOP / "cases" / folders.get(command, f"words/help_of_{command}_is_printed")
        if command in COMMANDS:
            yield folder / "args", f"{command}\n--help\n"
        yield folder / "stdout", text


def all_made():
    """Each file in which something is made, with its text."""
    check_ranges()
    sources, helps = all_helps()
    yield from sources.items()
    yield from all_cases(helps)
    tables = {"options before the tool": words_table(), "options of the tools": letters_table()}
    yield COMMAND_LINE, between(COMMAND_LINE, tables, "<!-- @ -->\n")
    yield COMING_FROM, between(COMING_FROM, {"options": varnish_table()}, "<!-- @ -->\n")
    for command, page in PAGES.items():
        parts = {"usage": page_usage(command)} | ({"options": page_options(command)} if here(command) else {})
        yield page, between(page, parts, '.\\" @\n')


def write_or_check(word, maker, made):
    """With --write writes what is made of the source, and with --check fails where a file isn't that."""
    for path, text in made:
        if word == "--write":
            path.parent.mkdir(exist_ok=True)
            path.write_text(text)
        elif not path.is_file() or path.read_text() != text:
            sys.exit(f"{Path(maker).stem}: {path.relative_to(TOP)} is not what `{maker} --write` writes")
    if word == "--check":
        print(f"{Path(maker).stem}: all that is made is up to date")


def main():
    if sys.argv[1:] == []:
        for option in (option for program in HELPS for option in all_options(program)):
            for command in option.tools:
                print(command, option.name, option.kind)
    elif sys.argv[1:] in (["--write"], ["--check"]):
        write_or_check(sys.argv[1], "tools/options.py", all_made())
    else:
        sys.exit("usage: tools/options.py [--write|--check]")


if __name__ == "__main__":
    main()
