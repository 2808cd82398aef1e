"""What is made of the rows of commands and options in the source, as help, tables and pages, is as it would be made."""

import re

import options
from checks.docs import PAGES, formats, read
from checks.running import TOP, Failed


def options_in(text):
    """The options of a text: words that begin with `-` and a letter, and `-1`."""
    return {word for word in re.split(r"[^A-Za-z0-9_-]+", text) if re.match(r"--?[A-Za-z]|-1$", word)}


def of_pages():
    """Each option of a man page is in the formats."""
    known = options_in("\n".join(formats().values()))
    for page in PAGES:
        # the examples are run, and have other programs, too
        shown = re.sub(r"^\.nf\n.*?^\.fi$", "", read(f"docs/man/{page}.1"), flags=re.M | re.S)
        lines = [line for line in shown.splitlines() if not line.startswith('.\\"')]
        text = re.sub(r"\\f[BIRP]", " ", "\n".join(lines)).replace("\\-", "-")
        unknown = options_in(text) - known
        if unknown:
            raise Failed(f"options of docs/man/{page}.1 that are not in docs/formats: {' '.join(sorted(unknown))}")


def made():
    """Each file in which something is made is there, and as it would be made."""
    try:
        files = list(options.all_made())
    except SystemExit as refused:
        raise Failed(str(refused)) from None
    for path, text in files:
        if not path.is_file() or path.read_text() != text:
            raise Failed(f"{path.relative_to(TOP)} is not what `tools/options.py --write` writes")


def check(_):
    lacks = [page for page in PAGES if not (TOP / f"docs/man/{page}.1").is_file()]
    if lacks:
        raise Failed("; ".join(f"docs/man/{page}.1 is missing: each command and program has a page" for page in lacks))
    of_pages()
    made()
    rows = [row for program in options.HELPS for row in options.all_options(program)]
    return f"{len(options.COMMANDS)} rows of commands and {len(rows)} of options in the source"
