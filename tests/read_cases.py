"""Cases for reading: sheets and goals, whole and damaged."""

import examples

SEED = 1_701
EDGE_BYTES = b"aZ_0(),.=+-*;:%! \n\r\0\x7f\xff"
LONG = b"w" * 32

# One way to each place of the grammar, and what is tried there.
SHEET_PLACES = [
    b"", b"p", b"p(", b"p(a", b"p(X", b"p(7", b"p(f(", b"p(f(a", b"p(f(a)", b"p(a,",
    b"p(a)", b"p:-", b"p:-q", b"p:-q(", b"p:-q(a", b"p:-q(a)", b"p:-X", b"p:-7",
    b"p:-X=", b"p:-X=Y", b"p:-X=7", b"p:-X=f", b"p:-X=f(a)", b"p:-f=", b"p:-f(a)=",
    b"p:-q,", b"p:-q,r", b"p.", b"p:-q.", b"p(a).", b":-", b":-mode", b":-mode p",
    b":-mode p(", b":-mode p(+", b":-mode p(+,", b":-mode p(+,-)", b":-mode p.",
    b":-mode p(*).", b"% p(", b"% p(\n", b"p:-(", b"p:-(q", b"p:-(q(a)", b"p:-(X", b"p:-(X=", b"p:-(X=a", b"p:-(q,",
    b"p:-(q;", b"p:-(q;r", b"p:-(q;r,", b"p:-(q;r)", b"p:-(q;r),", b"p:-q,(", b"p:-((", b"p:-((q;r)", b"p:-((q;r),",
    b"p:-((q;r);", b"p:-(q;(", b"p:-(q;(r;s)", b"p:-(q;r).", b"(",
]
GOAL_PLACES = [
    b"", b"p", b"p(", b"p(a", b"p(f(a", b"p(a,", b"p(a)", b"X", b"7", b"X=", b"X=a",
    b"X=f(Y)", b"f=", b"f(X)=", b"p,", b"true,fail", b"p.", b"X=a.", b"% p.", b"p.\n",
    b"(", b"(p", b"(p,", b"(p;", b"(p;X", b"(p;q", b"(p;q)", b"(p;q),", b"((p;q)", b"(p;(q;r)", b"(p;q).",
]
NEXT_TOKENS = [
    b"a", b"X", b"_", b"7", b"(", b")", b",", b";", b".", b"=", b"+", b"-", b"*", b":-",
    b"mode", b":", b"!", b"%", b"\xe9", LONG, b"",
]


def listed(items):
    return b",".join(items)


def repeated(item, times):
    return listed([item] * times)


def nested(name, depth, core=b"a"):
    return (name + b"(") * depth + core + b")" * depth


def variables(count):
    return [b"V%d" % n for n in range(count)]


def in_atoms(name, terms):
    """The terms as arguments of atoms of that name, eight to an atom."""
    return listed(
        [name + b"(" + listed(terms[n : n + 8]) + b")" for n in range(0, len(terms), 8)]
    )


def length_limits(add):
    fact = b"p(a)."
    for kind, most in (("S", 16_384), ("G", 1_024)):
        add(kind, fact + b" " * (most - 5))
        add(kind, fact + b" " * (most - 4))
        add(kind, b"%" + b"\xff" * (most - 7) + b"\n" + fact)
        add(kind, b"\n" * (most - 2) + b"p(")
        add(kind, b"\n" * (most - 1) + b":")
        add(kind, b"!" + b"\n" * most)
        add(kind, b"\r" * (most - 1) + b"p(")
    for kind in "SG":
        for size in (1_023, 1_024, 1_025, 1_026, 4_096):
            add(kind, repeated(b"abcdefg", 16) + b"." + b" " * (size - 128))


def word_limits(add):
    for letter in (b"a", b"X", b"7"):
        for size in (30, 31, 32, 33, 64, 300):
            word = letter + b"1" * (size - 1)
            for sheet in (
                b"%s.", b"%s", b"p(%s).", b"p(a,f(%s)).", b"p :- %s = a.", b"p :- a = %s.",
                b":- mode %s.", b":- %s p.", b"%% %s", b"p(a %s).", b"p. %s. !",
            ):
                add("S", sheet % word)
            for goal in (b"%s.", b"%s = X.", b"p(%s).", b"p. %s", b"p. %% %s", b"p %s"):
                add("G", goal % word)
    add("S", b"p(" + repeated(b"b" * 31, 8) + b").")


def bracket_limits(add):
    for depth in (14, 15, 16, 17, 18, 40):
        for text in (
            nested(b"p", depth), b"q :- " + nested(b"p", depth), b"q :- X = " + nested(b"p", depth),
            b"q :- " + nested(b"p", depth) + b" = X", b"p(" + nested(b"f", depth - 1) + b",a)",
            b"p(f(a),f(f(a)),g(h(b),c)," + nested(b"f", depth - 1) + b")",
        ):
            add("S", text + b".")
            add("G", text.removeprefix(b"q :- ") + b".")
            add("S", text.removesuffix(b")") + b".")
        for core in (b"1(a)", b"X(a)", b"(", b")", b"", b"!(", LONG + b"(", b"f()", b"a,("):
            add("S", nested(b"p", depth, core) + b".")
            add("G", nested(b"p", depth, core) + b".")
    deepest = b"a"  # what takes most native stack: the last of 8 arguments in each of 16 brackets, in literal 16
    for _ in range(16):
        deepest = b"f(" + repeated(b"a", 7) + b"," + deepest + b")"
    add("S", b"p :- " + repeated(b"q", 15) + b"," + deepest + b".")
    add("G", repeated(b"q", 15) + b"," + deepest + b".")
    add("S", b"p(" + repeated(b"f(a)", 8) + b")." * 3)
    for item in (nested(b"f", 15), nested(b"f", 14), nested(b"f", 16)):
        add("S", b"p(" + repeated(item, 8) + b").")


def around(brackets, core, side=b"q"):
    """The core on the left of so many brackets, and on the right."""
    return b"(" * brackets + core + (b";" + side + b")") * brackets, (b"(" + side + b";") * brackets + core + b")" * brackets


def either_brackets(add):
    """Brackets with a semicolon: 15 to 18 open at once with the terms inside, behind closed ones, cut short, with a limit and a fault at one token."""
    for depth in range(19):
        for inner in sorted({0, 1, max(16 - depth, 0), max(17 - depth, 0)}):
            for text in around(depth, nested(b"f", inner) + (b"=a" if inner % 2 else b"")):
                add("S", b"p:-" + text + b".")
                add("G", text + b".")
    for token in NEXT_TOKENS:
        for depth in (15, 16, 17):
            add("S", b"p:-" + b"(" * depth + token)
            add("S", b"p:-" + b"(q;" * min(depth, 15) + token)
            add("G", b"(" * depth + b"f" + token)
            add("G", b"(q;r)," + b"(" * depth + b"X=f" + token)
    deepest = b"a"  # what takes most native stack: so many brackets, each behind as many literals as there can be, and the terms of bracket_limits
    for terms in range(17):
        depth = min(16 - terms, 15)
        left, right = around(depth, deepest + b"=a")
        before = repeated(b"q", 15 - depth) + b"," if depth < 15 else b""
        for text in (before + left, before + right, left.replace(b"(" * depth, b"(" * depth + before, 1)):
            add("S", b"p:-" + text + b".")
            add("G", text + b".")
        deepest = b"f(" + repeated(b"a", 7) + b"," + deepest + b")"
    for text in (b"(a;b):-c.", b"p:-((q;r)).", b"p((q;r)).", b"p:-q((r;s)).", b"p:-(q;r)=X.", b"p:-X=(q;r).", b"p:-f((q;r))=X.", b"p:-(q;r)(s;t).",
                 b"p:-(q:-r;s).", b"p:-(q;r.s).", b":-mode p((+;-)).", b":-(mode p).", b"p:-(q=r;1=X,s=t(u)).", b"p:-(true;fail),(fail;true)."):
        add("S", text)
        add("G", text.removeprefix(b"p:-"))


def either_literals(add):
    """15 to 18 literals in brackets of every kind, and what follows the sixteenth in one."""
    for count in (15, 16, 17, 18):
        half, third = repeated(b"q", count // 2), repeated(b"X=a", count // 3)
        shapes = [
            b"(" + half + b";" + repeated(b"q", count - count // 2) + b")", repeated(b"q", count - 2) + b",(q;q)",
            b"(q;" + repeated(b"q", count - 1) + b")", b"(" + repeated(b"q", count - 1) + b";q)", *around(count - 1, b"q"),
            b"(" + third + b";(" + third + b";" + repeated(b"q", count - 2 * (count // 3)) + b"))",
            b"((" + third + b";" + third + b")," + repeated(b"q(X)", count - 2 * (count // 3) - 1) + b";q)",
        ]
        if count % 2 == 0:
            shapes.append(repeated(b"(true;fail)", count // 2))
        for shape in shapes:
            for end in (b".", b"", b",q.", b",(", b",(q;q)."):
                add("S", b"p:-" + shape + end)
                add("G", shape + end)
    for token in NEXT_TOKENS:
        for start in (repeated(b"q", 16) + b",(", repeated(b"q", 16) + b",((", b"(" + repeated(b"q", 16) + b";", repeated(b"(q;r)", 8) + b",",
                      b"(" + repeated(b"q", 16) + b",", b"(" + repeated(b"q", 16), repeated(b"q", 14) + b",(q;q", repeated(b"q", 15) + b",(q;"):
            add("S", b"p:-" + start + token)
            add("G", start + token)
    names = variables(64)
    sides = [in_atoms(b"q", names[n : n + 8]) for n in range(0, 64, 8)]
    full = b",".join(b"(%s;%s)" % (sides[n], sides[n + 1]) for n in range(0, 8, 2))
    for last in (b".", b",V0=V63.", b",(V0=V63;W=W).", b",(_=V0;q).", b",W", b",(W", b",(q;W"):
        add("S", b"p:-" + full + last)
        add("G", full + last)


def argument_limits(add):
    for count in (1, 7, 8, 9, 10, 20):
        for item in (b"a", b"X", b"_", b"1", b"f(a)", b"f(X,Y)"):
            items = repeated(item, count)
            for text in (b"p(%s).", b"p(f(%s)).", b"p :- q(%s).", b"p :- f(%s) = X."):
                add("S", text % items)
            for text in (b"p(%s).", b"X = f(%s)."):
                add("G", text % items)
        for mark in b"+-*":
            add("S", b":- mode p(%s)." % repeated(bytes([mark]), count))
    for token in NEXT_TOKENS:
        add("S", b"p(" + repeated(b"a", 8) + b"," + token)
        add("S", b"p(a,f(" + repeated(b"a", 8) + b"," + token)
        add("S", b":- mode p(" + repeated(b"-", 8) + b"," + token)
        add("G", b"f(" + repeated(b"X", 8) + b"," + token)
        add("S", b":- mode p(" + repeated(b"+", 8) + token)


def variable_limits(add):
    for count in (32, 33, 63, 64, 65, 66):
        for names in (variables(count), [b"_"] * count, [b"_", b"X"] * 8 + variables(count - 9)):
            body = in_atoms(b"q", names)
            add("S", b"p :- " + body + b".")
            add("S", b"p :- " + body)
            add("S", b"p :- " + body + b", V0 = V1.")
            add("S", in_atoms(b"p", names[:8]) + b" :- " + in_atoms(b"q", names[8:]) + b".")
            add("S", in_atoms(b"p", names[:8]) + b" :- " + body + b".")
            add("S", b"p(" + repeated(b"f(" + listed(names[:5]) + b")", 7) + b").")
            add("G", body + b".")
            add("G", body + b", V0 = _.")
            add("G", listed([name + b" = a" for name in names[:16]] + [body]) + b".")
    full = in_atoms(b"q", variables(64))
    add("S", (b"p :- " + full + b".") * 3)
    add("S", (b"p :- " + full + b".") * 2 + b"p :- " + full + b", W.")
    for token in NEXT_TOKENS:
        add("S", b"p :- " + full + b", V63 = " + token)
        add("S", b"p :- " + full + b"," + token)
        add("G", full + b"," + token)
        add("S", b"p :- " + full + b", q(V0" + token)


def literal_limits(add):
    for count in (1, 15, 16, 17, 18):
        for item in (b"true", b"fail", b"q", b"X=Y", b"1=1", b"q(a,X)", b"f(X)=f(Y)"):
            for end in (b".", b"", b",", b",."):
                add("S", b"p :- " + repeated(item, count) + end)
                add("G", repeated(item, count) + end)
    for token in NEXT_TOKENS:
        for kind, head in (("S", b"p :- "), ("G", b"")):
            add(kind, head + repeated(b"q", 16) + b"," + token)
            add(kind, head + repeated(b"q", 15) + b"," + token)


def item_limits(add):
    for count in (63, 64, 65, 66):
        modes = [b":- mode p%d(+)." % n for n in range(count)]
        add("S", b"".join(modes))
        add("S", b"\n".join(modes) + b"p0(a).")
        add("S", b"".join(mode + b"p0(a)." for mode in modes))
        add("S", b":-mode p." * count)
    for count in (255, 256, 257, 258):
        add("S", b"p." * count)
        add("S", b"p(X):-q." * count)
        add("S", b"p." * (count - 1) + b":- mode p.p.")
    modes = b"".join(b":-mode p%d." % n for n in range(64))
    facts = b"p0.\n" * 256
    for text in (modes + facts, facts + modes, facts + modes[9:], facts[4:] + modes):
        add("S", text)
        add("S", text + b" % end")
        for token in (b"p", b":-", b"X", b"!", LONG):
            add("S", text + token)
    for token in NEXT_TOKENS:
        add("S", b":-mode p." * 64 + token)
        add("S", b"p." * 256 + token)
        add("S", modes + b":- " + token)


def declaration_faults(add):
    """Number 7, its two reasons and what is no fault."""
    marks = (b"", b"(+)", b"(-)", b"(*)", b"(+,-)", b"(-,-)")
    for one in marks:
        for two in marks:
            add("S", b":- mode p%s.\np(a).\n:- mode p%s." % (one, two))
        for name in (b"true", b"fail", b"mode", b"tru", b"trues"):
            add("S", b":- mode %s%s. %s." % (name, one, name))
            add("S", b":- mode p. :- mode q. :- mode %s%s. :- mode q." % (name, one))
    add("S", b":- mode p. :- mode p. !")
    add("S", b":- mode p. :- mode p. :- mode")
    add("S", b"true. fail. :- mode true(+). :- mode true. :- mode fail.")


def small_texts(add):
    for kind in "SG":
        add(kind, b"")
        for byte in range(256):
            add(kind, bytes([byte]))
        for one in EDGE_BYTES:
            for two in EDGE_BYTES:
                add(kind, bytes([one, two]))


def places(add):
    for token in NEXT_TOKENS:
        for place in SHEET_PLACES:
            add("S", place + b" " + token)
        for place in GOAL_PLACES:
            add("G", place + b" " + token)


def worked_examples(add):
    for sheet, _ in examples.CHECKS:
        add("S", sheet)
    for goal, _ in examples.GOALS:
        add("G", goal)
    for *_, sheet, goal, _ in examples.RUNS + examples.SETTINGS:
        add("S", sheet)
        add("G", goal)


def make_entries(add):
    """The entries of sheets: below, at and past their number; of refused sheets, none."""
    plus = b":- mode plus(+,+,-).\nplus(z,N,N).\nplus(s(M),N,s(P)) :- plus(M,N,P).\n"
    mixed = b"% ends\n:-mode ends ( + , - ) . next(off,rinse).\r\n:- mode next(+,-). :- mode mode."
    marks = b":- mode p." + b"".join(b":- mode p(%s)." % repeated(b"*", n) for n in range(1, 9))
    full = b"".join(b":- mode %s(+)." % (b"n%d" % n).ljust(31, b"_") for n in range(64))
    last = b"\n" * 16_372 + b":-mode p(-)."
    for sheet, numbers in (
        (b"", (0, 1, 255)), (b"p(a).", (0, 1)), (plus, (0, 1, 2, 255)), (mixed, range(5)),
        (marks, range(10)), (full, (0, 1, 31, 62, 63, 64, 65, 255)), (last, (0, 1)),
        (b":- mode true(+). :- mode fail(-).", range(3)),
    ):
        for number in numbers:
            add(number, sheet)
    for sheet in (
        last + b" ", plus + b"!", plus + LONG, plus + b"p(", plus + b"(", full + b":- mode p.", full + b"p. q(",
        plus + b":- mode plus(-,-,-).", b":- mode p. :- mode p. !", b":- mode fail.", b":- mode p(+,-",
    ):
        for number in (0, 1):
            add(number, sheet)


def make_tokens(add):
    """Tokens by number, at the end of the text and past it."""
    for text in (
        b";", b"p:-(q;X=1),;;.", b"", b" ", b"% x", b"% x\n", b"p", b"p.", b" p :- q(X,_1,007). % z\n", b":-:-(),.=+-*", b"a" * 30 + b"B 1",
        b":- mode plus(+,+,-).\nplus(z,N,N).\nplus(s(M),N,s(P)) :- plus(M,N,P).\n", b"1a_Z9 Aa1 _ __ 0",
    ):
        for number in range(40):
            add(number, text)
        add(255, text)


# ---------------------------------------------------------------- by chance

NAMES = [b"p", b"q", b"a", b"f", b"mode", b"true", b"fail", b"s", b"zA_9", b"b" * 31]
VARIABLES = [b"X", b"Y", b"Z", b"_", b"_", b"_1", b"__", b"Xy_2", b"V" * 31]
NUMERALS = [b"0", b"1", b"01", b"42", b"9" * 31]
GAPS = [b" ", b" ", b"\n", b"\t", b"\r\n", b"  ", b"% c\n", b"%(.\xff\n", b" % :-\r%\n"]


def random_term(rng, depth):
    """The tokens of a term."""
    chance = rng.random()
    if chance < 0.3:
        return [rng.choice(VARIABLES)]
    if chance < 0.45:
        return [rng.choice(NUMERALS)]
    return random_atom(rng, depth)


def random_atom(rng, depth):
    tokens = [rng.choice(NAMES)]
    if depth and rng.random() < 0.6:
        tokens.append(b"(")
        for _ in range(rng.choice((1, 1, 2, 2, 3, 4, rng.randint(5, 8)))):
            tokens += random_term(rng, depth - 1) + [b","]
        tokens[-1] = b")"
    return tokens


def random_body(rng, depth, count):
    """The tokens of a body of so many literals, brackets among them as far as the depth goes."""
    tokens = []
    for _ in range(count):
        if depth and rng.random() < 0.15:
            sides = [random_body(rng, depth - 1, rng.choice((1, 1, 2))) for _ in range(2)]
            tokens += [b"(", *sides[0], b";", *sides[1], b")"]
        elif rng.random() < 0.3:
            tokens += random_term(rng, 2) + [b"="] + random_term(rng, 2)
        else:
            tokens += random_atom(rng, 2)
        tokens.append(b",")
    return tokens[:-1]


def random_literals(rng):
    return random_body(rng, 3, rng.choice((1, 1, 1, 2, 2, 3, 4, rng.randint(5, 14)))) + [b"."]


def random_item(rng):
    if rng.random() < 0.3:
        tokens = [b":-", b"mode", rng.choice(NAMES)]
        count = rng.choice((0, 1, 2, 3, rng.randint(4, 8)))
        if count:
            tokens.append(b"(")
            for _ in range(count):
                tokens += [rng.choice((b"+", b"-", b"*")), b","]
            tokens[-1] = b")"
        return tokens + [b"."]
    head = random_atom(rng, rng.randint(0, 3))
    if rng.random() < 0.5:
        return head + [b"."]
    return head + [b":-"] + random_literals(rng)


def spelt(rng, tokens):
    """The tokens with gaps where needed and some where not."""
    text, loose = b"", rng.choice((0, 0.1, 0.5))
    for token in tokens:
        glued = text[-1:].isalnum() or text[-1:] == b"_"
        if glued and (token[:1].isalnum() or token[:1] == b"_") or rng.random() < loose:
            text += rng.choice(GAPS)
        text += token
    return text + rng.choice((b"", b"", b"\n", b" ", b"% end"))


def random_text(rng, kind):
    if kind == "G":
        return random_literals(rng)
    return sum((random_item(rng) for _ in range(rng.randint(0, 5))), [])


def damaged_tokens(rng, tokens):
    at = rng.randrange(len(tokens) + 1)
    other = rng.choice(tokens + NEXT_TOKENS)
    return rng.choice(
        (tokens[:at] + tokens[at + 1 :], tokens[:at] + [other] + tokens[at:],
         tokens[:at] + [other] + tokens[at + 1 :], tokens[:at], tokens[at:] + tokens[:at])
    )


def damaged_bytes(rng, text):
    at = rng.randrange(len(text) + 1)
    byte = bytes([rng.choice(EDGE_BYTES) if rng.random() < 0.8 else rng.randrange(256)])
    return rng.choice(
        (text[:at] + text[at + 1 :], text[:at] + byte + text[at:],
         text[:at] + byte + text[at + 1 :], text[:at],
         text[:at] + text[at : at + 2][::-1] + text[at + 2 :])
    )


def by_chance(add, rng):
    for _ in range(380):
        kind = rng.choice("SSG")
        tokens = random_text(rng, kind)
        add(kind, spelt(rng, tokens))
        add(kind, spelt(rng, damaged_tokens(rng, tokens)))
        text = spelt(rng, tokens)
        for _ in range(rng.randint(1, 2)):
            text = damaged_bytes(rng, text)
        add(kind, text)


def make(add, rng):
    worked_examples(add)
    small_texts(add)
    places(add)
    length_limits(add)
    word_limits(add)
    bracket_limits(add)
    either_brackets(add)
    either_literals(add)
    argument_limits(add)
    variable_limits(add)
    literal_limits(add)
    item_limits(add)
    declaration_faults(add)
    by_chance(add, rng)
