#!/usr/bin/env python3
"""The tables of docs/formats that are made of the source, but those of options, which tools/options.py makes.

Usage: tools/tables.py            prints them
       tools/tables.py --write    writes them between their two comments
       tools/tables.py --check    says whether they stand as they would be written; the status is 1 where they don't

Made are the tags (crates/vsl_tags/specs/Tags.antt), the counters with what raises each (the table of crates/vsl_stat
and `causes` of crates/traffic_feed), the messages with their statuses (specs/Faults.antt of crates/varnish_tools and
the comments of the faults), and the limits: the numbers that definitions give, each with the comment above it, and the
ranges of options. It proves nothing.
"""

import re
import sys
from pathlib import Path

sys.dont_write_bytecode = True
import definitions
import options

TOP = Path(__file__).resolve().parent.parent
CRATES, PAGES = TOP / "crates", TOP / "docs/formats"
MAKER = "tools/tables.py"
IN_A_ROW = 8
MESSAGES = ("Req", "Resp", "Bereq", "Beresp", "Obj")
# What is written for the values of a message.
PLACES = {
    **{"name": "FILE", "place": "WORD", "word": "WORD", "at": "AT", "line": "LINE", "seen": "SEEN"},
    **{"query": "N", "feed": "N", "limit": "N"},
}
# What raises a counter, by the cause and what it is given.
RAISED = {
    "EachTag": "each {}",
    "EachRequest": "each well-formed Begin of the type `req` with the reason `rxreq`",
    "EachFetch": "each well-formed Begin of the type `bereq`",
    "EachCall": "each VCL_call `{}`",
    "EachField": "field {} of each ReqAcct",
    "EachRecord": "each record",
    "EachUnit": "each unit",
    "EachCut": "each cut of a listing",
    "EachWait": "each time that a writer that puts a unit finds another at work",
    "EachWrap": "each unit that wraps in the ring",
}
# The limits that a definition gives as a number, by the page of their subject, each with its crate; where the definition is
# by cases, with the case.
LIMITS = {
    "tags": ["vsl_tags first_tag", "vsl_tags last_tag", "vsl_tags longest_name"],
    "log-files": [
        *["vsl_record most_payload", "vsl_words vxid_end_of Two", "vsl_words most_words_of Two", "vsl_select most_file_words"],
        "vsl_file most_bytes",
    ],
    "feeds": [
        *["feed_files most_feed_bytes", "txn_rows most_digits", "traffic_feed most_records", "traffic_feed draw_end"],
        *["ring_layout overrun_distance", "ring_layout seek_distance", "ring_layout last_tail"],
        *["log_ring most_writers", "log_ring most_readers"],
    ],
    "queries": ["job_steps most_query_bytes", "query_parser most_open", "vsl_decimal most_digits"],
    "access-lines": ["ncsa_format last_second"],
    "counters": ["counter_segments most_passes", "counter_segments ceiling", "traffic_feed most_waits"],
    "varnish-log": ["varnish_log bytes_end", "varnish_log capacity"],
}
# The options that take a number, by their choice, with the field of a job that has it where the option isn't given.
RANGES = [
    *[("Keep", "keep"), ("Limit", "limit"), ("Timeout", "timeout"), ("Segment", "seg"), ("RecordLength", "reclen")],
    ("Turns", None),
]


def read(name):
    return (CRATES / name).read_text()


def refuse(what):
    """Ends the run with what is wrong."""
    sys.exit(f"tables: {what}")


def found(pattern, text, what):
    """What a pattern finds in a text, at least once."""
    return re.findall(pattern, text, re.M | re.S) or refuse(f"nothing is found of {what}")


def body(name, text):
    """What stands behind a definition's name, up to the next empty line."""
    return found(rf"^{name} =\s*\n?(.*?)(?:\n\n|\Z)", text, name)[0]


def rows_of(heads, rows):
    """The lines of a table."""
    return options.table_of(heads, rows)


def tags():
    """All tags: what stands for their names in the definition of all, each a name, or a message with its endings."""
    text = read("vsl_tags/specs/Tags.antt")
    single, endings = (re.findall(r'codes "(\w+)"', body(name, text)) for name in ("single_names", "message_endings"))
    found = []
    for term in re.split(r"\s*\+\+\s*", body("tag_names", text).strip()):
        message, names = re.fullmatch(r'message_names \(codes "(\w+)"\)', term), re.fullmatch(r'\(?((?:codes "\w+" ∷ )+)\[\]\)?', term)
        if term == "single_names":
            found += single
        elif message:
            found += [(message[1], ending) for ending in endings]
        elif names:
            found += re.findall(r'"(\w+)"', names[1])
        else:
            refuse(f"tag_names has a part that is neither names nor a message: {term}")
    if str(len(found)) != body("last_tag", text).strip():
        refuse(f"tag_names has {len(found)} names, and last_tag is another number")
    return list(enumerate(found, 1)), endings


def tags_table():
    """The tags that are of no message, each behind its number."""
    cells = [f"{number} {name}" for number, name in tags()[0] if isinstance(name, str)]
    cells += [""] * (-len(cells) % IN_A_ROW)
    return rows_of([""] * IN_A_ROW, [cells[at : at + IN_A_ROW] for at in range(0, len(cells), IN_A_ROW)])


def message_tags_table():
    """The tags of messages: a row for each message, a column for each ending."""
    found, endings = tags()
    rows = {}
    for number, name in found:
        if not isinstance(name, str):
            rows.setdefault(name[0], []).append(str(number))
    if tuple(rows) != MESSAGES:
        refuse(f"the messages of tags are not {', '.join(MESSAGES)}")
    return rows_of(["", *endings], [[name, *row] for name, row in rows.items()])


def counters_table():
    """The counters: number, name, description, and what raises each."""
    counters = found(r'^    \("MAIN\.(\w+)", "([^"]*)"\),$', read("vsl_stat/src/table.rt"), "counters")
    tags = dict(found(r"^/// `(\w+)`\.\npub const (\w+): u8 =", read("vsl_tags/src/named.rt"), "named tags"))
    of_tag = {constant: name for name, constant in tags.items()}
    causes = re.findall(r'(Each\w+)(?: (\w+)| \(codes "(\w+)"\))? ∷', body("causes", read("traffic_feed/specs/Counted.antt")))
    if len(causes) != len(counters):
        refuse("there are other causes than counters")
    rows = []
    for number, ((name, what), (cause, given, call)) in enumerate(zip(counters, causes)):
        rows.append([str(number), f"`{name}`", what, RAISED[cause].format(of_tag.get(given, given) or call)])
    return rows_of(["Number", "Name, behind `MAIN.`", "Description", "Raised by"], rows)


def message_text(text):
    """The text of a message as a definition spells it, with a word in capitals for each value."""
    parts = re.findall(r'codes "([^"]*)"|query_message (\w+)|word_at words (\w+)|\b(\w+)\b', text)
    made = [literal or (query and "KIND at AT") or PLACES.get(word or value, "") for literal, query, word, value in parts]
    return "".join(made).replace("\\n", "")


def faults():
    """The faults with their comments, those of words first."""
    pattern = r"((?:^    /// [^\n]*\n)+)(?:    #\[[^\n]*\n)?    (\w+)[^\n]*?[,{]$"
    for file, name in ("tool_words/src/fault.rt", "UsageFault"), ("job_steps/src/fault.rt", "ToolFault"):
        text = found(rf"^pub enum {name} \{{\n(.*?)^\}}", read(file), name)[0]
        for comment, fault in found(pattern, text, name):
            if fault != "Usage":
                yield fault, " ".join(line.strip("/ ") for line in comment.splitlines()).rstrip(".")


def faults_table():
    """The messages of faults: text, status, fault and when it comes."""
    text = read("varnish_tools/specs/Faults.antt")
    messages = dict(found(r"^(?:usage_message|message) words \(?(\w+)[^=]*= told \(?([^\n]*)\)$", text, "messages"))
    refused = found(r"^status_of \(Some \((\w+)[^=]*= 2$", text, "statuses")
    usage = found(r"^usage_message words \(?(\w+)", text, "messages of words")
    rows = []
    for fault, comes in faults():
        status = "2" if fault in refused or ("Usage" in refused and fault in usage) else "1"
        rows.append([f"`vtools: {message_text(messages[fault])}`", status, f"`{fault}`", comes])
    if len(rows) != len(messages):
        refuse("a message is of no fault")
    return rows_of(["Message", "Status", "Fault", "Comes where"], rows)


def number(text):
    """A number of a definition as it is read: with commas, or as a power."""
    power = re.fullmatch(r"2 \^ (\d+)", text)
    return f"2^{power[1]}" if power else f"{int(text.replace('_', '')):,}"


def title_of(page):
    """The title of a page, as a link to it."""
    return f"[{(PAGES / f'{page}.md').read_text().splitlines()[0].strip('# ')}]({page}.md)"


def limits_table():
    """The limits that definitions give, each with the comment above the definition."""
    index, rows = definitions.Index(), []
    for page, crate, name, *of in ((page, *limit.split()) for page, limits in LIMITS.items() for limit in limits):
        items = [spec.items[name] for spec in index.specs if spec.crate == crate and name in spec.items]
        value = items and re.search(rf"^{' '.join([name, *of])} = ([0-9_]+|2 \^ \d+)$", items[0].body, re.M)
        if len(items) != 1 or not value:
            refuse(f"{crate} has not one number {name}")
        sentence, _ = definitions.split_source(items[0].comment)
        rows.append([sentence, number(value[1]), title_of(page), f"`{name}` of `{crate}`"])
    return rows_of(["What", "Number", "Page", "Definition"], rows)


def ranges_table():
    """The ranges of the options that take a number, and what counts without one."""
    text = read("tool_words/specs/Fold.antt")
    ranges = dict(found(r"^range_of choices\.(\w+) = (\(\d+, \d+\))$", text, "ranges"))
    absent = dict(found(r"^  (\w+) = (\w+);$", body("plain_job tool", text), "the job without options"))
    if ranges.keys() != dict(RANGES).keys():
        refuse("an option has a range that no row is of")
    rows = []
    for choice, field in RANGES:
        least, most = map(number, re.findall(r"\d+", ranges[choice]))
        without = number(absent[field]) if field and absent[field].isdigit() else ""
        names = {option.name for option in options.all_options() if option.choice == choice}
        rows.append([", ".join(f"`{name}`" for name in sorted(names)), least, most, without])
    return rows_of(["Option", "Least", "Most", "Without it"], rows)


def all_made():
    """Each page in which something is made, with its text."""
    parts = {
        "tags": {"tags": tags_table(), "tags of messages": message_tags_table()},
        "counters": {"counters": counters_table()},
        "messages": {"faults": faults_table()},
        "limits": {"limits": limits_table(), "ranges": ranges_table()},
    }
    for page, made in parts.items():
        path = PAGES / f"{page}.md"
        yield path, options.between(path, made, "<!-- @ -->\n", MAKER)


def main():
    if sys.argv[1:] == []:
        for path, text in all_made():
            for made in re.findall(rf"<!-- made by {MAKER}: (.*?) -->\n(.*?)\n<!-- made until here -->", text, re.S):
                print(f"{path.relative_to(TOP)}, {made[0]}:", made[1], sep="\n")
    elif sys.argv[1:] in (["--write"], ["--check"]):
        options.write_or_check(sys.argv[1], MAKER, all_made())
    else:
        sys.exit("usage: tools/tables.py [--write|--check]")


if __name__ == "__main__":
    main()
