"""Runs the commands of README and GUIDE in a shell, and compares what they print.

A block that begins with `$ ` is run command by command, in the order of the page, in a folder that each page has for
itself; a line that begins with `> ` goes on with the command before it. In the folder are `bin`, which is on the path,
and `examples`. Two programs have stand-ins in `bin`, because no server runs here: Varnish's varnishlog, which writes a
log of `examples/` that a server wrote, and ssh, which runs its command at this place. A page may leave out the empty
line behind a last group.

Behind the blocks the tables are run. What stands in a column `Command` has to end well. Where the first column is `Your
query`, `Your format` or `Your command`, its text is tried, and the second column must have the message, or `nothing`
where nothing is printed; the text of the third column has to end well.
"""

import re
import shlex

from checks.docs import read
from checks.running import TOP, Failed, run, temporary_folder

DOCUMENTS = ("README.md", "docs/GUIDE.md")
STAND_INS = {
    "varnishlog": """#!/bin/sh
to=text
for word do
  [ "$before" = -w ] && to=$word
  before=$word
done
case $to in
  text) cat examples/varnish.raw ;;
  -) cat examples/varnish.vsl ;;
  *) cat examples/varnish.vsl >"$to" ;;
esac
""",
    "ssh": """#!/bin/sh
shift
exec sh -c "$*"
""",
}
BLOCK = re.compile(r"^```text\n(\$ .*?)\n```$", re.DOTALL | re.MULTILINE)
TABLE = re.compile(r"^\|(.*)\|\n\|[-|]+\|\n((?:\|.*\|\n)+)", re.MULTILINE)
CELLS = re.compile(r"(?<!\\)\|")
# Of a text in a table, by the head of its column, the command that takes it.
TAKEN_BY = {
    "Command": lambda text: text,
    "Your command": lambda text: text,
    "Your query": lambda text: f"vtools varnishlog -q {shlex.quote(text)} -r today.vslog",
    "Your format": lambda text: f"vtools varnishncsa -F {shlex.quote(text)} -r today.vslog",
}
MESSAGE = re.compile(r"vtools: (?:query 0: |format: )?(.*)\n")


def commands(block):
    """Each command of a block, and the lines that it prints."""
    found = []
    for line in block.split("\n"):
        if line.startswith("$ "):
            found.append([line[2:], []])
        elif line.startswith("> ") and not found[-1][1]:
            found[-1][0] += "\n" + line[2:]
        else:
            found[-1][1].append(line)
    return found


def rows_of(text):
    """The rows of each table whose texts are tried: the head of their column, and the cells from there on."""
    for heads, rows in TABLE.findall(text):
        heads = [head.strip() for head in CELLS.split(heads)]
        for head in TAKEN_BY.keys() & set(heads):
            for row in rows.splitlines():
                cells = [cell.strip().replace("\\|", "|") for cell in CELLS.split(row[1:-1])]
                yield head, cells[heads.index(head) :]


def code_in(cell):
    """The first text of a cell between marks of code."""
    return cell.split("`")[1]


def make_folder(folder, programs):
    """Puts the programs and the stand-ins into a folder, beside the examples."""
    (folder / "bin").mkdir()
    (folder / "examples").symlink_to(TOP / "examples")
    for name, path in programs.items():
        (folder / "bin" / name).symlink_to(path)
    for name, script in STAND_INS.items():
        (folder / "bin" / name).write_text(script)
        (folder / "bin" / name).chmod(0o755)


def run_shell(command, folder):
    """What came of a command in the folder."""
    shell = ["bash", "-o", "pipefail", "-c", f'PATH="$PWD/bin:$PATH"\n{command}']
    return run(["env", "LC_ALL=C", *shell], folder)


def run_command(name, command, wanted, folder):
    """Runs a command of a block."""
    came = run_shell(command, folder)
    got = (came.stdout + came.stderr).decode().split("\n")[:-1]
    if got not in (wanted, [*wanted, ""]):
        raise Failed(f"{name}: {command}: {got}, not {wanted}")


def refuse(name, command, wanted, folder):
    """Runs a command that is refused with a message, or prints nothing."""
    came = run_shell(command, folder)
    message = MESSAGE.fullmatch(came.stderr.decode())
    said = message[1] if message else (came.stdout + came.stderr).decode() or "nothing"
    if said != wanted:
        raise Failed(f"{name}: {command}: {said}, not {wanted}")


def accept(name, command, folder):
    """Runs a command that has to end well."""
    came = run_shell(command, folder)
    if came.status or b"vtools: " in came.stderr:
        raise Failed(f"{name}: {command}: status {came.status}: {came.stderr.decode()}")


def run_row(name, head, cells, folder):
    """Tries what a row of a table has."""
    if head == "Command":
        accept(name, code_in(cells[0]), folder)
    else:
        refuse(name, TAKEN_BY[head](code_in(cells[0])), cells[1].strip("`*"), folder)
        accept(name, TAKEN_BY[head](code_in(cells[2])), folder)


def run_document(programs, name):
    """Runs the commands of a page, and answers how many there are."""
    text = read(name)
    found = [command for block in BLOCK.findall(text) for command in commands(block)]
    rows = list(rows_of(text))
    if len(found) != len(re.findall(r"^\$ ", text, re.MULTILINE)) or not found:
        raise Failed(f"{name} has no commands, or has some outside of blocks of text")
    with temporary_folder() as folder:
        make_folder(folder, programs)
        for command, wanted in found:
            run_command(name, command, wanted, folder)
        for head, cells in rows:
            run_row(name, head, cells, folder)
    return len(found) + len(rows)


def check(program, vslog):
    programs = {"vtools": program, "vslog": vslog}
    return f"{sum(run_document(programs, name) for name in DOCUMENTS)} commands"
