"""Texts that are made up from draws: queries, formats, taglists and patterns, good ones and such as have a fault."""

MOST_OPEN = 64  # parentheses and `not`s of a query

CRITERIA = [
    *["Begin", "Link", "End", "VSL", "Timestamp", "RespStatus", "ReqURL", "*", "Resp*", "begin,*stamp", "Hit"],
    *["Begin[2]", "Link[1]", "Link[2]", "Begin[3]", "ReqHeader:host", "ReqHeader:Accept[2]", "Timestamp:Start[1]"],
]
ASKED = [
    *['eq "a"', "ne esi", "eq req", "eq 2", "== 2", "!= 3", "< 4", "<= 4.0", "> 1", ">= 200.5", "== 200", "== 200.0"],
    *["~ '^req'", '!~ "[12]"', "~ 'rxreq|flush'", "> 101.5", "< 103.000000001", "~ synth", "eq timeout", "== -1"],
]
OF_SERVER = [
    *["ReqHeader:'Host'", "*Header:User-Agent", 'VCL_Log:"ke y"', "VCL_call", "*Acct[5]", "be*,REQ*,**"],
    *["Req*:Host[01]", "RespStatus", "RespStatus", "Timestamp:Start[1]"],
]
CLOSE = [
    *["==2", "~'a'", "!~x", ">=-0.5", "<'1'", 'eq"HTTP\\/1"', "ne''", "eq and", 'eq "a\\"b"', "== '-0'", '~ ""'],
    *["eq HIT", "~ 'h.t'", "== -0.0", "< 0", "> -1", "!= 000200.000", "<= -200.9"],
    ">= 999999999999999999.999999999999999999",
]
WRONG_TESTS = [
    *["== 1e3", '~ "("', "!= 200.", "> +1", "!~ '[a'", "<= ''", "~ *", "{2}", "[0]", "[10000]", ":Host:x"],
    *["== 1234567890123456789", "eq", "~", "=", "!"],
]
OF_QUERIES = [
    *"{}[]():,\"'\\ \t\n\r=!<>~+-.*_0129aenotrdEéx%#\f",
    *["and", "or", "not", "eq", "ne", "99999", "[0]", "{1}", "Foo", "1e3", "\n#"],
]
TAGLISTS = [
    *["Begin", "End", "Req*", "*Header", "*", "**", "begin,LINK", "*e*,End", "VCL_call", "Timestamp", "*acct"],
]
WRONG_TAGLISTS = ["Nope", "", ",", "End,", "Re*q", "Begin End", "***", "x*", "Begin,,End", "é", "44"]
PATTERNS = [
    *["^req", "fetch$", "a|b", "", "[12]", "[^a-c]x?", "(a|e)+s", "H[a-z]*:", "\\.", "^$", "rx.*q", "(?:2|3) f"],
    *["x??", "0\\+?", "host: ", "a b", "\\d{2}", "\\bre", "[^1]\\s\\w+", "(\\W|e){1,2}?q", "\\D\\B", "o{2,}$"],
    "\\S{0}",
]
WRONG_PATTERNS = ["a{2,1}", "{2}", "(", "a)", "*", "[a", "[z-a]", "a|*", "(b", "\\", "+1"]
LETTERS = "hlutrmUqHsbIODT"
BRACED = [
    *["{Host}i", "{host}i", "{X}o", "{}i", "{User-Agent}i", "{Accept}o", "{sec}t", "{msec}t", "{usec}t"],
    *["{msec_frac}t", "{usec_frac}t", "{%F %T}t", "{%d/%b/%Y:%H:%M:%S %z}t", "{%e%%\\\"}t", "{}t", "{SEC}t", "{é%m}t"],
    *["{Varnish:hitmiss}x", "{Varnish:handling}x", "{Varnish:side}x", "{Varnish:vxid}x", "{Varnish:time_firstbyte}x"],
    *["{VCL_Log:key}x", "{VCL_Log:}x", "{VCL_Log:ke y}x", "{VSL:ReqURL}x", "{VSL:timestamp:Resp[2]}x"],
    *["{VSL:Begin[3]}x", "{VSL:ReqHeader:host}x", "{VSL:ReqAcct[06]}x", "{VSL:VCL_Log:}x", "{VSL:End}x"],
    *["{VSL:Timestamp:Start[9999]}x", "{VSL:Link[2]}x", "{VSL:ReqHeader:X:y}x"],
]
FORMATTERS = ["%" + letter for letter in LETTERS] + ["%" + braced for braced in BRACED] * 2
WRONG_FORMATTERS = [
    *["%Z", "%", "%i", "%>s", "%{Host}", "%{Host}h", "%{a}}i", "%{Varnish:Side}x", "%{Varnish:}x", "%{foo}x"],
    *["%{vsl:ReqURL}x", "%{VCL_Log}x", "%{VSL:}x", "%{VSL:Req*}x", "%{VSL:ReqURL,End}x", "%{VSL:ReqURL[0]}x"],
    *["%{VSL:ReqURL[10000]}x", "%{VSL:ReqURL[1}x", "%{VSL:ReqURL[1]a}x", "%{VSL:ReqURL[]}x", "%{%Q}t", "%{%Y%}t"],
    *["%{%}t", "%{VSL:End:a[b]}x", "%{VSL: End}x"],
]
PLAIN = ["%%", "\\n", "\\t", "\\", "\\\\n", " ", '"', "a", "é", "-", "}", "\x01", "\n", "\\x"]
OF_FORMATS = [
    *"%{}[]:\\ntxio019SVéh\"*,",
    *["%Z", "%{", "}x", "%Q", "[0]", "[10000]", "%{VSL:Nope}x", "%{Varnish:foo}x", "%{%Q}t", "VSL:"],
]


def spoiled(draw, text, signs):
    """The text with a few signs left out, put in, changed or said twice."""
    for _ in range(draw.choice([1, 1, 1, 2, 3])):
        at, size, sign = draw.randint(0, len(text)), draw.choice([1, 1, 2, 6]), draw.choice(signs)
        before, here, behind = text[:at], text[at : at + size], text[at + size :]
        text = draw.choice(
            [
                before + behind,
                before + sign + here + behind,
                before + sign + here[1:] + behind,
                before + here + here + behind,
                before,
            ]
        )
    return text


def of_query(draw, most):
    """A query of at most so many tests without a fault."""
    if most > 1 and draw.randrange(3):
        size = draw.randrange(1, most)
        joined = f"{of_query(draw, size)} {draw.choice(['and', 'or'])} {of_query(draw, most - size)}"
        return draw.choice([joined, f"({joined})", f"not ({joined})"])
    level = "{%d%s}" % (draw.randrange(4), draw.choice(["", "+", "-"])) if draw.randrange(3) == 0 else ""
    test = f"{level}{draw.choice(CRITERIA)}" + (f" {draw.choice(ASKED)}" if draw.randrange(3) else "")
    return draw.choice(["", "", "not "]) + test


def of_other_form(draw, most):
    """A query whose tokens have other blanks, or none, between them, and numbers at their bounds."""
    if most > 1 and draw.randrange(3):
        size = draw.randrange(1, most)
        joining = draw.choice([" and ", ")and(", "\tor  ", " or", ")or ("])
        joined = joining.join([of_other_form(draw, size), of_other_form(draw, most - size)])
        return draw.choice([f"({joined})", f"not({joined})", f"( {joined}\r)"])
    level = draw.choice(["", "", "", "", "{01}", "{9999-}", "{0+}", draw.choice(["{10000}", "{1-}"])])
    field = draw.choice(["", "", "", "[1]", "[02]", draw.choice(["[0]", "[9999]", "[10000]"])])
    criterion = level + draw.choice(draw.choice([OF_SERVER, CRITERIA, [name + field for name in TAGLISTS]]))
    asked = draw.choice([draw.choice(CLOSE + ASKED), draw.choice(["~", "!~ "]) + quoted(draw, pattern(draw))])
    operator = draw.choice(["", " ", "\t"]) + asked if draw.randrange(3) else ""
    return draw.choice(["", "", "not ", "not not\t"]) + criterion + operator


def quoted(draw, text):
    """A text between quotes, in which backslashes and such quotes have a backslash before them."""
    quote = draw.choice("'\"")
    return quote + text.replace("\\", "\\\\").replace(quote, "\\" + quote) + quote


def deep(draw):
    """A query with about as many parentheses and `not`s open at once as there may be."""
    opened = draw.choices(["(", "( ", "not "], k=MOST_OPEN + draw.randint(-2, 2))
    closing = ")" * sum("(" in each for each in opened)
    return "".join(opened) + draw.choice(["End", "(End)", "{1}End"]) + closing + draw.choice(["", " and End", ")"])


def query(draw):
    """A text of a query, often with a fault."""
    if draw.randrange(20) == 0:
        return deep(draw)
    text = draw.choice([of_query, of_other_form, of_other_form])(draw, 4)
    if draw.randrange(5) == 0:
        text = draw.choice(["\n", "# é\n", " \t\r\n", "\n \t# x\r\n"]).join([text, query(draw)])
    if draw.randrange(5) == 0:
        behind = draw.choice(["", " ", " and End", "%"])
        text = draw.choice(["End", text]) + draw.choice(["", " "]) + draw.choice(WRONG_TESTS) + behind
    return spoiled(draw, text, OF_QUERIES) if draw.randrange(5) < 2 else text


def access_format(draw):
    """A text of a format of access lines, sometimes with a fault."""
    pieces = [draw.choice(draw.choice([FORMATTERS, FORMATTERS, PLAIN])) for _ in range(draw.randint(0, 8))]
    text = "".join(pieces)
    if draw.randrange(6) == 0:
        text += draw.choice(WRONG_FORMATTERS) + draw.choice(["", "%h", "%Z"])
    return spoiled(draw, text, OF_FORMATS) if draw.randrange(4) == 0 else text


def taglist(draw):
    """A taglist, sometimes one that is refused."""
    names = draw.choice(TAGLISTS if draw.randrange(12) else WRONG_TAGLISTS)
    return names + "," + draw.choice(TAGLISTS) if draw.randrange(4) == 0 else names


def pattern(draw):
    """A pattern, seldom one that is refused."""
    text = draw.choice(PATTERNS if draw.randrange(12) else WRONG_PATTERNS)
    return spoiled(draw, text, "ab1 .*?|()[]^$\\") if draw.randrange(6) == 0 else text


def rule(draw):
    """The words of an option -i, -x, -I or -X."""
    if draw.randrange(2):
        return [draw.choice(["-i", "-x"]), taglist(draw)]
    before = draw.choice(["", "", ":", taglist(draw) + ":", "^Host:", "no tag:"])
    return [draw.choice(["-I", "-X"]), before + pattern(draw)]
