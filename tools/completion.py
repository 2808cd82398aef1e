#!/usr/bin/env python3
"""Makes what completion/ has of the tables of the source, for command lines of vtools and vslog in bash, zsh and fish.

Commands and options, their values and what is said of them are those of tool_words, without the options that are left
out, and those of vslog; tags are those of vsl_tags, counters those of vsl_stat, formatters
those of ncsa_format, and what compares in a query that of query_parser. In the files they stand between two comments.
With --write these are written. Without it nothing is: it is said whether the files have what would be written, and the
status is 1 where one doesn't.
"""
import re
import sys
import textwrap
from pathlib import Path

sys.dont_write_bytecode = True
import options

TOP = Path(__file__).resolve().parent.parent
CRATES = TOP / "crates"
COMPLETION = TOP / "completion"
TAGS = CRATES / "vsl_tags/src/names.rt"
COUNTERS = CRATES / "vsl_stat/src/table.rt"
FORMATTERS = CRATES / "ncsa_format/src/formatter.rt"
FORMAT = CRATES / "ncsa_format/src/format.rt"
COMPARISONS = CRATES / "query_parser/src/operator.rt"
# what is offered as the value of an option, by the value's name in the help, or else by its form; else nothing
OF_VALUE = {
    **{"FILE": "file", "OUT": "file", "TAGLIST": "tag", "RULE": "rule", "GLOB": "counter"},
    **{"FORMAT": "format", "TEXT": "query"},
}
OF_FORM = {"AnyGrouping": "grouping", "AccessGrouping": "access_grouping"}
# the words that are offered with what they are, or in longer texts
LISTED = (*OF_FORM.values(), "tag", "counter", "formatter", "comparison")


def kind_of(option):
    """What an option takes."""
    if option.kind == "flag":
        return "flag"
    return OF_FORM.get(option.form) or OF_VALUE.get(option.value) or "text"


def told(option):
    """What an option does, in a few words."""
    page = re.sub("[`*]", "", option.of("page:"))
    text = option.does() if len(option.helps) == 1 and option.does() else page[0].lower() + page[1:]
    return re.split(r"[;:.] |, as in ", text)[0].removesuffix(".")


def taken(command):
    """Each option of a command: its name, what it takes, the name of its value, and what it does."""
    return [(option.name, kind_of(option), option.value, told(option)) for option in options.here(command)]


def names_behind(command):
    """The names that a command takes behind its own, and no options."""
    of_names = [command for command in options.all_commands().values() if not command.is_tool]
    return {row.name: re.findall(r"\b[A-Z]{2,}\b", row.usage.partition(row.name)[2]) for row in of_names}.get(command, [])


def feeding():
    """The options before the tool that feed."""
    return [option.name for option in options.here("vtools") if option.form in ("FeedName", "CountAndSeed")]


def form_words(name):
    """The words that a form of values takes, each with what the help says of it."""
    found = re.findall(r"`(\w+)`", options.form_words(name)) or sys.exit(f"completion: the form {name} names no words")
    helps = {words: lines for option in options.all_options() for words, lines in option.helps.items()}
    return {word: re.split("; ", " ".join(helps[f"-g {word}"]))[0] for word in found}


def table_rows(source, start, row):
    """The rows of a table, which begins with START and says how many there are."""
    table = re.search(re.escape(start) + r"[^\n]*; (\d+)\] = \[\n(.*?)^\];", source.read_text(), re.M | re.S)
    found = re.findall(row, table[2], re.M) if table else []
    if not found or len(found) != int(table[1]):
        sys.exit(f"{source.name}: a row of `{start}` has another form")
    return found


def variants(enum):
    """The variants of an enum of FORMATTERS: for each its text, and what it is by the line above it, or by its name."""
    body = re.search(rf"^pub enum {enum} \{{\n(.*?)^\}}", FORMATTERS.read_text(), re.M | re.S)[1]
    found = re.findall(r"^    /// (?:`([^`]+)`(?:, (.*))?|A text with directives)\.\n    (\w+)", body, re.M)
    if [name for _, _, name in found] != re.findall(r"^    (\w+)", body, re.M):
        sys.exit(f"completion: a variant of {enum} has not its text in the line above it")
    return [(text, does or re.sub("(?<=[a-z])(?=[A-Z])", " ", name).lower()) for text, does, name in found if text]


def formatters():
    """The formatters, each with what it is: a form or a header for each X, and of names with a key how they begin."""
    headers = sorted(set(re.findall(r"%\{([\w-]+)\}([io])", FORMAT.read_text() + options.SOURCE.read_text())))
    found = {}
    for text, does in variants("Formatter"):
        if text == "%{X}t":
            found |= {f"%{{{form}}}t": of_form for form, of_form in variants("TimeForm") if form.islower()}
        elif "{X}" in text:
            found |= {text.replace("X", header): does for header, letter in headers if letter == text[-1]}
        elif re.search(":(key|tag)", text):
            found[re.sub("(key|tag).*", "", text)] = does
        else:
            found[text] = does
    return found


def words():
    """The words of each kind, each with what it is."""
    counters = table_rows(COUNTERS, "static COUNTERS: [(&str, &str)", r'^    \("([\w.]+)", "([^"]*)"\),$')
    tags = table_rows(TAGS, "static ROWS: [(&str, u8)", r'^    \("(\w+) *", \d+\),$')
    comparisons = re.findall(r'^        b"(\S+)" => Operator::', COMPARISONS.read_text(), re.M)
    return {
        "tool": {name: command.does for name, command in options.all_commands().items()},
        "naming": dict.fromkeys(command for command in options.COMMANDS if names_behind(command)),
        "feed": dict.fromkeys(feeding()),
        **{OF_FORM[form]: form_words(form) for form in OF_FORM},
        "tag": dict.fromkeys(tags),
        "counter": dict(counters),
        "formatter": formatters(),
        "comparison": dict.fromkeys(comparisons),
    }


def quoted(text):
    """A text as bash and zsh read it, in single quotes where it needs them."""
    return text if re.fullmatch(r"[\w.-]+", text) else "'" + text.replace("'", "'\\''") + "'"


def wrapped(words, indent):
    """Words in lines that are indented."""
    blanks = " " * indent
    return textwrap.fill(" ".join(words), 118, initial_indent=blanks, subsequent_indent=blanks, break_on_hyphens=False)


def lines(rows, indent):
    """Rows, each a line that is indented."""
    return "\n".join(" " * indent + row for row in rows)


def array(name, made, indent):
    """An array of bash and zsh, in lines that are indented."""
    blanks = " " * indent
    return f"{blanks}{name}=(\n{made}\n{blanks})" if made else f"{blanks}{name}=()"


def case_of(branches):
    """The branches of a `case`, each with its lines."""
    return "\n".join(f"    {pattern})\n{made}\n        ;;" for pattern, made in branches.items())


def for_bash(rows, kinds):
    """What the completion for bash has."""
    taken = {tool: wrapped((f"[{name}]={kind}" for name, kind, _, _ in rows[tool]), 12) for tool in rows}
    options = {'""' if tool == "vtools" else tool: array("takes", taken[tool], 8) for tool in rows}
    words = {kind: wrapped([f"words='{' '.join(kinds[kind])}'"], 8) for kind in kinds}
    return {"options": case_of(options), "words": case_of(words)}


def zsh_option(name, kind, value, does):
    """An option as `_arguments` of zsh reads it."""
    told = re.sub(r"([\[\]])", r"\\\1", does)
    if kind == "flag":
        return quoted(f"*{name}[{told}]")
    action = {"file": "_files", "text": " "}.get(kind, f"_vtools_{kind}")
    return quoted(f"*{name}{'+' * (len(name) == 2)}[{told}]:{value}:{action}")


def zsh_array(name, words):
    """Words as an array, each with what it is behind a colon."""
    told = [quoted(word.replace(":", "\\:") + (f":{does}" if does else "")) for word, does in words.items()]
    return array(name, lines(told, 8) if any(words.values()) else wrapped(told, 8), 4)


def for_zsh(rows, kinds):
    """What the completion for zsh has."""
    rows = {"feed": [row for row in rows["vtools"] if row[0] in kinds["feed"]], **rows}
    names = {tool: [quoted(f"{n}:{name}:_files") for n, name in enumerate(names_behind(tool), 1)] for tool in rows}
    made = {tool: lines([*(zsh_option(*row) for row in rows[tool]), *names[tool]], 12) for tool in rows}
    arrays = [zsh_array(f"{kind}s", kinds[kind]) for kind in ("tool", "feed", *LISTED)]
    options = {tool: array("specs", made[tool], 8) for tool in rows}
    return {"options": case_of(options), "words": "\n".join(arrays)}


def fish_quoted(text):
    """A text as fish reads it, in single quotes where it needs them, or in double ones."""
    if re.fullmatch(r"[\w.-]+", text):
        return text
    return f"'{text}'" if not re.search(r"['\\]", text) else '"' + re.sub(r'(["$\\])', r"\\\1", text) + '"'


def fish_option(name, kind, _, does):
    """An option as `complete` of fish reads it."""
    taken = {"flag": "", "file": " -r -F", "text": " -x"}.get(kind, f" -x -a '(__vtools_{kind} {name[1:]})'")
    return f"{'-s' if len(name) == 2 else '-l'} {name.lstrip('-')}{taken} -d {fish_quoted(does)}"


def fish_list(name, words):
    """Words as a list, each with what it is behind a tab."""
    told = [fish_quoted(word) + (f"\\t{fish_quoted(does)}" if does else "") for word, does in words.items()]
    made = lines(told, 4) if any(words.values()) else wrapped(told, 4)
    return f"set -g __vtools_{name} \\\n" + made.replace("\n", " \\\n")


def for_fish(rows, kinds):
    """What the completion of vtools for fish has."""
    valued = {name: None for name, kind, _, _ in rows["vtools"] if kind != "flag"}
    lists = [fish_list(f"{kind}s", kinds[kind]) for kind in ("feed", *LISTED)] + [fish_list("valued", valued)]
    given = [("__vtools_is_before", f"-a {tool} -d {fish_quoted(does)}") for tool, does in kinds["tool"].items()]
    for row in rows["vtools"]:
        given.append(("__vtools_is_before" if row[0] in kinds["feed"] else "__vtools_is_fed", fish_option(*row)))
    for tool in kinds["tool"]:
        given.append((f"'__vtools_is {tool}; and __vtools_has 2'", "-l help -d 'prints what the tool takes'"))
        given += [(f"'__vtools_is {tool}'", fish_option(*row)) for row in rows[tool]]
        given += [(f"'__vtools_is {tool}'", "-F")] if names_behind(tool) else []
    options = (f"complete -c vtools -n {condition} {option}" for condition, option in given)
    return {"words": lines(lists, 0), "options": lines(options, 0)}


def for_vslog(rows, kinds):
    """What the completion of vslog for fish has."""
    return {"options": lines((f"complete -c vslog {fish_option(*row)}" for row in rows["vslog"]), 0)}


def all_made():
    """Each file of completion/, with its text."""
    kinds = words()
    rows = {command: taken(command) for command in ("vtools", *options.COMMANDS, "vslog")}
    files = {"vtools.bash": for_bash, "_vtools": for_zsh, "vtools.fish": for_fish, "vslog.fish": for_vslog}
    for name, made in files.items():
        indent = "" if name.endswith(".fish") else "    "
        maker = "tools/completion.py"
        yield COMPLETION / name, options.between(COMPLETION / name, made(rows, kinds), f"{indent}# @\n", maker)


def main():
    if sys.argv[1:] not in ([], ["--write"]):
        sys.exit("usage: tools/completion.py [--write]")
    options.write_or_check(*sys.argv[1:] or ["--check"], "tools/completion.py", all_made())


if __name__ == "__main__":
    main()
