#!/usr/bin/env python3
"""Makes docs/DEFINITIONS.md from the comments of `specs/` and the clauses of `src/`.

Usage: tools/definitions.py            prints the text
       tools/definitions.py --write    writes docs/DEFINITIONS.md
       tools/definitions.py --unused   prints what no public call reaches, and what has no source
       tools/definitions.py --reach NAME ..     counts what these definitions reach, with themselves, by crate

A sentence is the comment above a definition, or above the module that it begins. Its source is what stands in
parentheses at the comment's end, or else at the end of the first sentence of the file's head. A public call carries a
definition if one of its clauses cites it, or cites another definition that does. A definition without a comment is an
error. It proves nothing.
"""

import re
import sys
import textwrap
from collections import Counter, deque
from pathlib import Path

ROOT = Path(__file__).resolve().parent.parent
DOCUMENT = ROOT / "docs" / "DEFINITIONS.md"
MOST_CALLS = 3

HEAD = """# Definitions

Every `pub` definition of `specs/`, by crate and file, the lowest crate first. `make definitions` makes this page from
comments and clauses; it isn't committed.

A sentence is the comment above the definition. A source is a section of the public manual or this project's choice; `-`
where neither the definition nor the head of its file names one. The last column has the public calls whose clauses cite
the definition, directly or through the fewest other definitions, at most three. A type's name there stands for what
contracts see of its values. "Private steps" says that only clauses inside the crate cite it, or that it stands in
`specs/inside/`; "none" that no clause does.
"""


class Definition:
    """An item of a file of specs/."""

    def __init__(self, crate, file, name, comment, public):
        self.crate = crate
        self.file = file
        self.name = name
        self.comment = comment
        self.public = public
        self.body = ""

    def is_inside(self):
        """Whether it says what private steps do."""
        return "/inside/" in self.file or "/Inside" in self.file or self.name.startswith("Inside")


class Spec:
    """A file of specs/: what it defines and what its names mean."""

    def __init__(self, crate, file, module):
        self.crate = crate
        self.file = file
        self.module = module
        self.head = ""
        self.items = {}
        self.constructors = {}
        self.imports = {}
        self.modules = {}
        self.passed_on = {}


class Call:
    """A function, a trait's law or what contracts see of a type, with the text of its clauses."""

    def __init__(self, crate, label, public, clauses, imports):
        self.crate = crate
        self.label = label
        self.public = public
        self.clauses = clauses
        self.imports = imports


def crates():
    """The crates, lowest first."""
    names = []
    for line in (ROOT / "crates.txt").read_text().splitlines():
        found = re.match(r"([a-z0-9_]+)( staticlib)?:", line)
        if found:
            names.append(found.group(1))
    return names


def spec_files(folder):
    """The files of a folder of specs/, in the order of Lib.antt; what it doesn't name comes last."""
    lib = folder / "Lib.antt"
    if not lib.is_file():
        lib = folder.with_suffix(".antt")
    names = []
    if lib.is_file():
        names = re.findall(r"^(?:pub )?mod (\S+)", lib.read_text(), re.M)
    there = {path.stem for path in folder.glob("*.antt") if path.name != "Lib.antt"}
    there |= {path.name for path in folder.iterdir() if path.is_dir()}
    for name in names + sorted(there - set(names)):
        file, inner = folder / f"{name}.antt", folder / name
        if file.is_file() and name in there:
            yield file
        if inner.is_dir():
            yield from spec_files(inner)


def uses(text):
    """The `use` lines of a text: whether each is passed on, its path, its names and its other name."""
    pattern = r"^[ \t]*(pub |ghost )?use Rattle\.([\w.\-]+?)(?:\.\{([^}]*)\})?(?: as (\w+))?;?[ \t]*$"
    for found in re.finditer(pattern, text, re.M):
        passed, path, names, other = found.groups()
        yield passed == "pub ", path, names, other


def named(names):
    """The names in the braces of a `use`, each with the name that it has here."""
    for part in names.split(","):
        words = part.split()
        if len(words) == 1:
            yield words[0], words[0]
        elif len(words) == 3 and words[1] == "as":
            yield words[0], words[2]


def read_imports(text, imports, modules, passed_on):
    """Takes the `use` lines of a text."""
    for passed, path, names, other in uses(text):
        if names is None:
            modules[other or path.split(".")[-1]] = path
            if passed:
                passed_on[path] = None
            continue
        for name, here in named(names):
            imports[here] = (path, name)
            if passed:
                passed_on[here] = (path, name)


MODIFIERS = r"(?:(?:abbrev|unfoldable|record|data) )"
ITEM = re.compile(rf"{MODIFIERS}*pub {MODIFIERS}*(\S+)(?=\s|$)")
PRIVATE = re.compile(rf"{MODIFIERS}+(\S+)|(\S+) :(?=\s|$)")


def read_spec(crate, path):
    """Reads a file of specs/."""
    file = path.relative_to(ROOT / "crates" / crate).as_posix()
    module = file.removesuffix(".antt").removesuffix("/Lib").replace("/", ".")
    spec = Spec(crate, file, f"{crate}.{module}")
    text = path.read_text()
    read_imports(text, spec.imports, spec.modules, spec.passed_on)
    comment, above = [], []
    item = None
    is_head = True
    in_module = False
    for line in text.splitlines():
        if line[:1].strip():
            in_module = line.startswith("module ")
        elif in_module:
            line = line.removeprefix("  ")
        if line.startswith("--"):
            comment.append(line.lstrip("-").strip())
            continue
        if is_head:
            spec.head, comment, is_head = " ".join(comment), [], False
        if not line.strip():
            comment = []
            continue
        if line.startswith("module "):
            above, comment, item = comment, [], None
            continue
        if re.match(r"(pub )?(use|mod) ", line):
            comment, item = [], None
            continue
        if re.match(r"infix[lr]? ", line):
            item = None
            continue
        if line[0].isspace():
            constructor = re.match(r"\s+(?:pub )?([A-Z]\S*) : ", line)
            if item and constructor:
                spec.constructors[constructor.group(1)] = item.name
        else:
            public = ITEM.match(line)
            private = None if public else PRIVATE.match(line)
            if public or private:
                name = public.group(1) if public else private.group(1) or private.group(2)
                item = Definition(crate, file, name, " ".join(comment or above), bool(public))
                spec.items[name] = item
                comment, above = [], []
        if item:
            item.body += line + "\n"
    return spec


def split_source(comment):
    """A comment without its source, and the source, which stands in parentheses at its end."""
    text = comment.rstrip()
    end = text.rstrip(".")
    if not end.endswith(")"):
        return text, None
    depth = 0
    for at in range(len(end) - 1, -1, -1):
        depth += {")": 1, "(": -1}.get(end[at], 0)
        if depth == 0:
            source = end[at + 1 : -1]
            if re.search(r"[a-z][a-z-]*\(\d\)|this project's", source):
                return end[:at].rstrip(), source
            break
    return text, None


def head_source(head):
    """The source in the first sentence of a file's head."""
    for found in re.finditer(r"\)(?=[.:]|$)", head):
        source = split_source(head[: found.end()])[1]
        if source:
            return source
    return None


def without_comments(text):
    """Source text without comments and without what stands in quotes."""
    quoted = r"""//[^\n]*|/\*.*?\*/|b?"(?:\\.|[^"\\])*"|b?'(?:\\.|[^\\'\n])'"""
    return re.sub(quoted, lambda found: "" if found.group().startswith("/") else '""', text, flags=re.S)


def block_end(text, at):
    """The place after the brace that closes the one at this place."""
    depth = 0
    while at < len(text):
        depth += {"{": 1, "}": -1}.get(text[at], 0)
        at += 1
        if depth == 0:
            return at
    return at


def item_end(text, at):
    """The place after an item that ends with a semicolon or a block, whichever comes first."""
    depth = 0
    while at < len(text):
        if text[at] in "([":
            depth += 1
        elif text[at] in ")]":
            depth -= 1
        elif text[at] == "{":
            at = block_end(text, at) - 1
            if not re.match(r"\s*;", text[at + 1 :]):
                return at + 1
        elif text[at] == ";" and depth == 0:
            return at + 1
        at += 1
    return at


def function(text, at):
    """The clauses of the function whose name ends here, and the place after it."""
    clauses = []
    depth = 0
    while at < len(text):
        clause = re.compile(r"(requires|ensures)\b\s*\w*\s*(?=\{)").match(text, at)
        if clause and not (text[at - 1].isalnum() or text[at - 1] == "_"):
            end = block_end(text, clause.end())
            clauses.append(text[clause.end() + 1 : end - 1])
            at = end
            continue
        if text[at] in "([":
            depth += 1
        elif text[at] in ")]":
            depth -= 1
        elif text[at] == "{":
            return clauses, block_end(text, at)
        elif text[at] == ";" and depth == 0:
            return clauses, at + 1
        at += 1
    return clauses, at


WORD = re.compile(r"\s*(?:#!?\[[^\]]*(?:\[[^\]]*\][^\]]*)*\]\s*)*(pub(?:\([^)]*\))? )?\s*(?:const |async |unsafe )*([A-Za-z_]+)")


def type_name(text):
    """The name of a type, without its path and its parameters."""
    return re.split(r"[<\s(]", text.strip().split("::")[-1].strip())[0]


def read_items(crate, module, text, imports, container, calls):
    """Reads the items of a file, or of the block of an `impl` or a trait."""
    here = dict(imports)
    modules = {}
    at = 0
    while at < len(text):
        word = WORD.match(text, at)
        if not word:
            at += 1
            continue
        visible, keyword = word.group(1) == "pub ", word.group(2)
        end = word.end()
        if keyword == "fn":
            name = re.compile(r"\s*(\w+)").match(text, end)
            clauses, at = function(text, name.end())
            calls.append((container, module, name.group(1), visible, " ".join(clauses), (here, modules)))
        elif keyword in ("impl", "trait"):
            opening = text.index("{", end)
            signature = text[end:opening].replace("->", "")
            closing = block_end(text, opening)
            if keyword == "trait":
                inner = ("trait", type_name(signature.split(":")[0]), None)
            else:
                if signature.lstrip().startswith("<"):
                    depth, cut = 0, 0
                    for cut, letter in enumerate(signature):
                        depth += {"<": 1, ">": -1}.get(letter, 0)
                        if letter == ">" and depth == 0:
                            break
                    signature = signature[cut + 1 :]
                signature = signature.split(" where ")[0]
                parts = re.split(r"\bfor\b", signature)
                trait = type_name(parts[0]) if len(parts) == 2 else None
                inner = ("impl", type_name(parts[-1]), trait)
            read_items(crate, module, text[opening + 1 : closing - 1], here, inner, calls)
            at = closing
        elif keyword == "ghost":
            at = item_end(text, end)
            item = text[word.start() : at].strip()
            if re.match(r"ghost use ", item):
                read_imports(item, here, modules, {})
            else:
                calls.append((container, module, None, True, item, (here, modules)))
        else:
            at = item_end(text, end)


def exported(crate_folder):
    """The names that a library's lib.rt passes on; `None` for a program, whose `pub` items all count."""
    for name in ("lib.rt", "lib.rs"):
        lib = crate_folder / "src" / name
        if lib.is_file():
            names = set()
            for found in re.finditer(r"^pub use ([\w:]+?)(?:::\{([^}]*)\})?;", without_comments(lib.read_text()), re.M):
                if found.group(2) is None:
                    names.add(found.group(1).split("::")[-1])
                else:
                    names.update(part.split()[-1] for part in found.group(2).split(",") if part.strip())
            return names
    return None


def read_calls(crate):
    """The functions, traits and types of a crate's src/ that have clauses."""
    folder = ROOT / "crates" / crate
    names = exported(folder)
    found = []
    for path in sorted((folder / "src").rglob("*.r[ts]")):
        raw = []
        text = without_comments(path.read_text())
        module = path.relative_to(folder / "src").with_suffix("").as_posix().replace("/", "::")
        read_items(crate, module, text, {}, None, raw)
        is_root = module in ("lib", "main")
        for container, module, name, visible, clauses, imports in raw:
            if container is None:
                public = visible and (names is None or is_root or name in names)
                label = name if names is not None or is_root else f"{module}::{name}"
            else:
                kind, owner, trait = container
                public = names is None or owner in names
                if kind == "trait":
                    label = f"{owner}::{name}" if name else owner
                elif trait is None:
                    public, label = public and visible, f"{owner}::{name}"
                elif trait == "Model":
                    label = owner
                else:
                    label = f"{owner} as {trait}"
            if name is None and container is None:
                continue
            found.append(Call(crate, label, public, clauses, imports))
    return found


class Index:
    """All definitions and calls, with what they cite."""

    def __init__(self):
        self.crates = crates()
        self.specs = []
        self.modules = {}
        self.calls = []
        for crate in self.crates:
            folder = ROOT / "crates" / crate
            if (folder / "specs").is_dir():
                self.specs += [read_spec(crate, path) for path in spec_files(folder / "specs")]
                for lib in (folder / "specs").rglob("Lib.antt"):
                    spec = read_spec(crate, lib)
                    self.modules[spec.module] = spec
            self.calls += read_calls(crate)
        self.modules.update((spec.module, spec) for spec in self.specs)

    def find(self, path, name, depth=0):
        """The definition that a name of a module means."""
        spec = self.modules.get(path)
        if depth > 8:
            return None
        if spec is None:
            outer, _, inner = path.rpartition(".")
            target = self.modules[outer].modules.get(inner) if outer in self.modules else None
            return self.find(target, name, depth + 1) if target else None
        name = spec.constructors.get(name, name)
        if name in spec.items:
            return spec.items[name]
        if name in spec.passed_on:
            return self.find(*spec.passed_on[name], depth + 1)
        for inner, target in spec.passed_on.items():
            if target is None:
                found = self.find(inner, name, depth + 1)
                if found:
                    return found
        return None

    def cited(self, text, imports, modules, spec=None):
        """The definitions that a text cites."""
        found = {}
        for token in re.findall(r"[^\s(){}\[\],;`]+", text):
            token = token.rstrip(".:") or token
            for name in (token, token.split(".")[0]):
                for spelled in (name, f"◌{name}◌"):
                    item = None
                    if spec:
                        item = spec.items.get(spec.constructors.get(spelled, spelled))
                    if item is None and spelled in imports:
                        item = self.find(*imports[spelled])
                    if item:
                        found[id(item)] = item
            prefix, dot, rest = token.partition(".")
            if dot and prefix in modules:
                item = self.find(modules[prefix], rest)
                if item:
                    found[id(item)] = item
        return list(found.values())

    def edges(self):
        """For each definition those that it cites."""
        edges = {}
        for spec in self.specs:
            for item in spec.items.values():
                edges[id(item)] = self.cited(item.body, spec.imports, spec.modules, spec)
        return edges

    def reached(self, names):
        """The definitions of these names, and all that they reach."""
        edges = self.edges()
        left = [item for spec in self.specs for item in spec.items.values() if item.name in names]
        found = {id(item): item for item in left}
        while left:
            for item in edges[id(left.pop())]:
                if id(item) not in found:
                    found[id(item)] = item
                    left.append(item)
        return list(found.values())

    def reach(self):
        """For each definition the calls that reach it with the fewest steps, and whether a private one does."""
        edges = self.edges()
        nearest, private = {}, set()
        for call in self.calls:
            imports, modules = call.imports
            queue = deque((item, 0) for item in self.cited(call.clauses, imports, modules))
            seen = {id(item) for item, _ in queue}
            while queue:
                item, distance = queue.popleft()
                if call.public:
                    nearest.setdefault(id(item), []).append((distance, call))
                else:
                    private.add(id(item))
                for next_item in edges[id(item)]:
                    if id(next_item) not in seen:
                        seen.add(id(next_item))
                        queue.append((next_item, distance + 1))
        return nearest, private


def calls_of(index, item, nearest, private):
    """What the last column says of a definition."""
    if item.is_inside():
        return "private steps"
    reached = nearest.get(id(item))
    if not reached:
        return "private steps" if id(item) in private else "none"
    least = min(distance for distance, _ in reached)
    calls = [call for distance, call in reached if distance == least]
    order = {crate: place for place, crate in enumerate(index.crates)}
    calls.sort(key=lambda call: (call.crate != item.crate, order[call.crate]))
    labels = []
    for call in calls:
        label = call.label if call.crate == item.crate else f"{call.crate}::{call.label}"
        owner, _, trait = label.partition(" as ")
        label = f"`{owner}`" + (f" as `{trait}`" if trait else "")
        if label not in labels:
            labels.append(label)
    return ", ".join(labels[:MOST_CALLS])


def cell(text):
    """A text as the cell of a table."""
    return text.replace("|", "\\|")


def document(index):
    """The text of the document, and the definitions that have no comment."""
    nearest, private = index.reach()
    lines = [HEAD]
    errors = []
    crate = None
    for spec in index.specs:
        items = [item for item in spec.items.values() if item.public]
        if not items:
            continue
        if spec.crate != crate:
            crate = spec.crate
            lines.append(f"## {crate}\n")
        lines.append(f"### `{spec.file}`\n")
        if spec.head:
            lines.append(textwrap.fill(spec.head, 120, break_long_words=False, break_on_hyphens=False) + "\n")
        lines.append("| Name | Sentence | Source | Public call |")
        lines.append("|---|---|---|---|")
        default = head_source(spec.head)
        for item in items:
            if not item.comment:
                errors.append(item)
            sentence, source = split_source(item.comment)
            calls = calls_of(index, item, nearest, private)
            lines.append(f"| `{cell(item.name)}` | {cell(sentence)} | {cell(source or default or '-')} | {calls} |")
        lines.append("")
    return "\n".join(lines).rstrip("\n") + "\n", errors


def unused(index):
    """What no public call reaches, what is inside and in a public clause, and files with a definition of no source."""
    nearest, private = index.reach()
    for spec in index.specs:
        items = [item for item in spec.items.values() if item.public]
        place = f"crates/{spec.crate}/{spec.file}"
        for item in items:
            direct = any(distance == 0 for distance, _ in nearest.get(id(item), []))
            if item.is_inside() and direct:
                yield f"{place}: {item.name} is inside, and a public call cites it"
            elif not item.is_inside() and id(item) not in nearest:
                by = "private steps alone" if id(item) in private else "no clause"
                yield f"{place}: {item.name} is cited by {by}"
        bare = any(not split_source(item.comment)[1] and not head_source(spec.head) for item in items)
        if bare and not all(item.is_inside() for item in items):
            yield f"{place}: a definition without a source"


def main():
    option = sys.argv[1] if len(sys.argv) > 1 else None
    index = Index()
    if option == "--unused":
        print(*unused(index), sep="\n")
        return
    if option == "--reach":
        found = index.reached(sys.argv[2:])
        counts = Counter(item.crate for item in found).most_common()
        print(f"{len(found)}: " + ", ".join(f"{crate} {count}" for crate, count in counts))
        return
    text, errors = document(index)
    if option == "--write":
        DOCUMENT.write_text(text)
    else:
        sys.stdout.write(text)
    for item in errors:
        print(f"crates/{item.crate}/{item.file}: {item.name} has no comment", file=sys.stderr)
    if errors:
        sys.exit(1)


if __name__ == "__main__":
    main()
