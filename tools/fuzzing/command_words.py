"""Words of command lines that are made up from draws, good ones and such as have a fault."""

from fuzzing import texts
from words import FLAGS, WITH_VALUE

VALUES = {
    "g": ["vxid", "request", "raw", "session", "Raw", ""],
    "k": ["1", "3", "999999999", "007", "0", "1000000000", "x"],
    "L": ["1", "5", "1000000", "0", "1000001", "+1"],
    "T": ["1", "120", "0", " 1"],
    "q": ["End", "Begin ~ req", "RespStatus >= 500", "Foo", "%", ""],
    "Q": ["q", "missing", "folder", "f", "-", "long"],
    "r": ["f", "f", "f", "-", "cut", "missing", "folder", "a", ""],
    "w": ["out", "old", "-", "folder", "no/such", "f", "/dev/full", ""],
    "F": ["%s", "%{Host}i %b", "%Z", "", "%h %"],
    "f": ["*", "MAIN.cache_*", "cache_hit", ""],
}
BEFORE = {
    "--feed": ["a", "a", "b", "missing", "folder", "f", "bad", "-", ""],
    "--gen": ["4,7", "1,0", "0,7", "4", "4,7,1", "100001,1", "3,65537", "004,07"],
    "--ring": ["64", "1000", "63", "1048577", "x"],
    "--reclen": ["16", "4000", "15", "4001"],
    "--turns": ["0", "7", "65536", "65537", "-1"],
}
OTHERS = [
    *["-h", "-V", "-n", "-nx", "-D", "-t", "-1h", "-bV", "-u", "-p", "-Rx", "-P"] * 2,  # of Varnish, and left out
    *["-", "--", "--version", "--help", "x", "", "é", "-é", "f", "-1", "-j", "-l", "varnishhist", "Varnishlog"],
    *["x\ny", "-\n"],
    *["\udcff", "-r\udcc3"],  # no UTF-8
]


def before(draw, count):
    """Options before the tool: mostly good values, which stand first."""
    words = []
    for _ in range(count):
        option = draw.choice([*BEFORE, "--feed", "--feed-first"])
        values = BEFORE.get(option)
        words += [option] if values is None else [option, draw.choice(values if draw.randrange(8) == 0 else values[:2])]
    return words


def value(draw, letter):
    """A value of a letter, mostly a good one."""
    if letter in "ix":
        return texts.taglist(draw)
    if letter in "IX":
        return texts.rule(draw)[1]
    if letter in "qF" and draw.randrange(2):
        return texts.of_query(draw, 3) if letter == "q" else texts.access_format(draw)
    return draw.choice(VALUES[letter] if draw.randrange(6) == 0 else VALUES[letter][:2])


def options(draw, tool, count):
    """Options of a tool: letters by themselves, together, and with values in their word or in the next."""
    words = []
    for _ in range(count):
        letters = "-" + "".join(draw.choice(FLAGS[tool]) for _ in range(draw.choice([1, 1, 1, 2, 3])))
        if draw.randrange(3) == 0:
            words.append(letters)
            continue
        letter = draw.choice(WITH_VALUE[tool])
        letters, text = draw.choice(["-", letters]) + letter, value(draw, letter)
        words += [letters + text] if text and draw.randrange(3) == 0 else [letters, text]
    return words


def spoiled(draw, words):
    """The words with one or two left out, put in, changed, said twice, cut or joined."""
    for _ in range(draw.choice([1, 1, 2])):
        at, other = draw.choice([draw.randint(0, len(words)), len(words)]), draw.choice(OTHERS)
        before, here, behind = words[:at], words[at : at + 1], words[at + 1 :]
        cut = draw.randint(0, len(here[0])) if here else 0
        words = draw.choice(
            [
                before + behind,
                before + [other] + here + behind,
                before + [other] + behind,
                before + here + here + behind,
                before + [part for word in here for part in (word[:cut], word[cut:])] + behind,
                before + ["".join(words[at : at + 2])] + behind[1:],
                before,
            ]
        )
    return words


def words(draw):
    """The words of a command line."""
    tool = draw.choice(list(FLAGS))
    is_fed = tool == "varnishstat" or draw.randrange(4) == 0
    first = before(draw, draw.choice([0, 1, 2])) + ["--feed", "a", "--feed-first"] if is_fed else []
    once = ["-1"] if tool in ("varnishtop", "varnishstat") else []
    log = [] if is_fed else draw.choice([["-r", "f"], ["-r", "f"], ["-rf"], ["-r", "-"], ["-r", "cut"]])
    many = draw.choice([0, 1, 2, 3])
    parts = [once, options(draw, tool, many), log]
    draw.shuffle(parts)
    made = [*first, tool, *(word for part in parts for word in part)]
    return spoiled(draw, made) if draw.randrange(2) else made
