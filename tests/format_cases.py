"""Cases for REQUESTS (iv), one spelling: sheets and the room that is lent ("W"); and sheets that are equal but for names."""

import itertools
import random
import re
from itertools import product

import check_cases
import engine
import examples
import random_sheets
import read_cases
import written

SEED = 401
MOST = 16_384
BEHIND = 7  # bytes lent behind a writing


def as_bytes(text):
    return text if isinstance(text, bytes) else text.encode()


def in_rooms(add, sheet):
    """With no room, one byte less than is written, exactly as many, and more."""
    answer = engine.afresh(sheet, 2 * MOST)
    if isinstance(answer, engine.Refusal):
        for room in (0, BEHIND):
            add(sheet, room)
        return
    for room in sorted({0, max(len(answer) - 1, 0), len(answer), len(answer) + BEHIND}):
        add(sheet, room)


def in_some_room(add, sheet):
    """With room behind what is written."""
    answer = engine.afresh(sheet, 2 * MOST)
    add(sheet, BEHIND if isinstance(answer, engine.Refusal) else len(answer) + BEHIND)


def worked_examples(add):
    for room, sheet, _ in examples.AFRESH:
        add(sheet, room)
        in_rooms(add, sheet)
    for sheet, _ in examples.CHECKS:
        in_rooms(add, sheet)


def checked_sheets(add):
    """Every sheet of the cases for checking that is accepted, and one in four of the others."""
    refused = itertools.count()

    def add_checked(letter, sheet, *_):
        sheet = as_bytes(sheet)
        if isinstance(engine.check_sheet(sheet), engine.Accepted) or next(refused) % 4 == 0:
            in_some_room(add, sheet)

    check_cases.make(add_checked, random.Random(check_cases.SEED))


def of(*parts):
    """A sheet: p with eight * arguments is declared, and these parts are its clauses' heads and bodies."""
    return b":-mode p(*,*,*,*,*,*,*,*).:-mode q." + b"".join(part + b"." for part in parts) + b"q."


def p(*arguments):
    return b"p(" + b",".join([*arguments, *[b"a"] * (8 - len(arguments))]) + b")"


def small_things(add):
    """Each blank and comment between any two tokens; each shape of clause and declaration."""
    tokens = b":-|mode|p|(|+|,|*|)|.|p|(|X|,|007|)|:-|q|,|(|X|=|_|;|true|)|.|:-|mode|q|.|q|.".split(b"|")
    for gap in (b" ", b"\t", b"\r", b"\n", b"%\n", b" % a.b(\xff)\n\n", b"%%\n% \n"):
        add(gap.join(tokens), 200)
        for at in range(len(tokens) + 1):
            add(b"".join(tokens[:at]) + gap + b"".join(tokens[at:]), 200)
    for marks in product("+-*", repeat=3):
        add(":-mode p(%s,%s,%s).p(a,b,1)." % marks, 99)
    for count in range(9):
        for mark in "+-*":
            add(check_cases.marked("p", mark * count) + random_sheets.atom("p", ["a"] * count) + ".", 99)
    for body in ("true", "fail", "q", "true,fail", "a=b", "X=X", "f(X)=g(Y,f(Y))", "(q;q)", "(q,q;q)", "(q;q,q)", "((q;q);q)", "(q;(q;q))", "q,(q;q),q",
                 "(q;q),(q;q)", "((q;q),q;q,(q;q))", "1=01", "true=fail", "(true;fail)", "mode=mode"):
        in_rooms(add, (":-mode q.q:-%s.q." % body).encode())


def names(add):
    """Variables with each spelling; `_` anew each time; names that look like V1; the same names in several clauses."""
    spellings = [b"_", b"__", b"_1", b"V", b"V1", b"V2", b"V10", b"V01", b"X", b"Xx", b"X_1", b"A" * 31, b"_" * 31]
    for one, other in product(spellings, repeat=2):
        add(of(p(one, other, one), p(other, one, other) + b":-%s=%s,%s=b" % (other, one, one)), 400)
    for order in (b"ABCDEFGH", b"HGFEDCBA", b"ABABABAB", b"AAAABBBB"):
        terms = [bytes([byte]) for byte in order]
        add(of(p(*terms), p(*terms[::-1]) + b":-" + b",".join(b"%s=%s" % pair for pair in zip(terms, terms[1:]))), 400)
    add(b":-mode v1.:-mode v2(*).v1:-v2(V2),v2(v2(V1)).v2(v1).", 99)


def numerals(add):
    for one, other in product(examples.NUMERALS, repeat=2):
        add(of(p(as_bytes(one), b"f(%s)" % as_bytes(other)) + b":-%s=%s" % (as_bytes(other), as_bytes(one))), 400)
    for zeros in range(31):
        add(of(p(b"0" * zeros + b"7", b"0" * (zeros + 1), b"0" * zeros + b"1" * (31 - zeros), b"a" + b"0" * zeros)), 400)
    add(of(p(b"0" * 32)), 400)


def limits(add):
    """64 variables, 16 brackets, 8 arguments, names of 31 bytes, 16 literals, 64 declarations, 256 clauses; and one more of each."""
    for count in (63, 64, 65):
        for spelling in (read_cases.variables(count), [b"_"] * count, [b"X%d" % (count - n) for n in range(count)]):
            terms = [b"f(%s)" % read_cases.listed(spelling[n : n + 8]) for n in range(0, count, 8)]
            in_rooms(add, of(p(b"f(%s)" % read_cases.listed(terms[:8]), *terms[8:])))
            in_rooms(add, of(p(*terms[:4]) + b":-" + b",".join(b"a=%s" % term for term in terms[4:])))
    for depth in (14, 15, 16):
        in_rooms(add, of(p(read_cases.nested(b"f", depth), read_cases.nested(b"f", depth, b"X"))))
        in_rooms(add, of(b"q:-" + b"(" * (depth + 1) + b"q" + b";q)" * (depth + 1)))
        in_rooms(add, of(b"q:-" + b"(q;" * (depth + 1) + b"q" + b")" * (depth + 1)))
        in_rooms(add, of(b"q:-X=" + read_cases.nested(b"f(a,a,a,a,a,a,a,", depth + 1).replace(b"(a,a,a,a,a,a,a,(", b"(a,a,a,a,a,a,a,")))
    for long in (30, 31, 32):
        word = b"w" * long
        in_rooms(add, b":-mode %s(*).%s(%s):-%s=%s." % (word, word, word, b"V" * long, word))
    for count in (15, 16, 17):
        in_rooms(add, of(b"q:-" + read_cases.repeated(b"q", count)))
        in_rooms(add, of(b"q:-" + b"(q;q)," * (count // 2) + b"q" * (count % 2 or 1)))
    for count in (63, 64, 65):
        modes = b"".join(b":-mode p%d(%s)." % (n, read_cases.repeated(b"+", n % 8 + 1)) for n in range(count))
        in_rooms(add, modes + b"".join(b"p%d(%s)." % (n, read_cases.repeated(b"X", n % 8 + 1)) for n in range(count)))
    for count in (255, 256, 257):
        in_rooms(add, b":-mode p." + b"p." * count)


def filled(size, clauses=250):
    """A sheet whose writing has that many bytes."""
    head = b":-mode p(*)."
    each, rest = divmod(size - len(b":- mode p(*).\n"), clauses)
    bodies = []
    for n in range(clauses):
        bodies.append(b"p(%s)." % term(each + (n < rest) - len(b"p().\n")))
    return head + b"".join(bodies)


def term(size):
    """A term of so many bytes, with commas in it where it is longer than a name."""
    if size <= 31:
        return b"a" * size
    inner, arguments = size - 3, []
    while inner > 0:
        take = min(31, inner)
        if inner - take == 1:
            take -= 1
        arguments.append(b"b" * take)
        inner -= take + 1
    return b"f(" + b",".join(arguments) + b")"


def full_outputs(add):
    """Outputs of 16,384 bytes and of one less and more, with room for them, for one less and for more; outputs that outgrow a short sheet."""
    for size, rooms in ((MOST - 1, [MOST - 1]), (MOST, [MOST - 1, MOST, 20_000]), (MOST + 1, [20_000])):
        sheet = filled(size)
        output = engine.afresh_sheet(engine.checked_sheet(sheet))
        assert len(output) == size and len(sheet) <= MOST, (len(output), len(sheet))
        for room in rooms:
            add(sheet, room)
    anonymous = b"p(%s)." % read_cases.repeated(b"_", 8)
    wide = b"p(%s):-%s." % (read_cases.repeated(b"_", 8), read_cases.listed([anonymous[:-1]] * 7))
    for count in (20, 60, 80, 100):
        add(b":-mode p(%s)." % read_cases.repeated(b"*", 8) + wide * count, 20_000)
        add(b":-mode p(%s)." % read_cases.repeated(b"*", 8) + anonymous * count * 2, 20_000)
    for size in (MOST, MOST + 1):
        add((b":-mode p.p." + b" " * MOST)[:size], 99)


CHANGES = [
    (rb"\bX\b", b"Long_name"), (rb"\b_\b", b"New"), (rb"\b([XYZ])\b", rb"\1\1"), (rb"\bX\b", b"Y"), (rb"\bY\b", b"_"), (rb"\b([0-9]+)\b", rb"00\1"),
    (rb"\b([0-9]+)\b", rb"1\1"), (rb",", b" ,\n"), (rb"\.", b". % end.\n"), (rb"\ba\b", b"b"), (rb";", b","), (rb"\btrue\b", b"fail"),
]


def changed(rng, sheet):
    """The sheet with names, zeros or blanks changed, or more than that; or two of its lines exchanged."""
    if rng.random() < 0.2:
        lines = sheet.split(b"\n")
        one, other = rng.randrange(len(lines)), rng.randrange(len(lines))
        lines[one], lines[other] = lines[other], lines[one]
        return b"\n".join(lines)
    old, new = rng.choice(CHANGES)
    return re.sub(old, new, sheet, count=rng.choice((0, 0, 1)))


def chance_sheet(rng):
    lines = rng.choice((random_sheets.well_marked_sheet, random_sheets.chance_sheet))(rng)[0]
    return written.completed("\n".join(lines))


def by_chance(add, rng):
    """As they come, and changed."""
    for _ in range(500):
        sheet = chance_sheet(rng)
        if len(sheet) < 600:
            in_some_room(add, sheet)
            in_some_room(add, changed(rng, sheet))
    for _ in range(150):
        tokens = read_cases.random_text(rng, "S")
        in_some_room(add, written.completed(read_cases.spelt(rng, tokens)))


def plain(thing):
    """Without places and without the variables' spellings."""
    if isinstance(thing, engine.Variable):
        return thing.number
    if isinstance(thing, engine.Clause):
        return plain(thing.head), plain(thing.body)
    if isinstance(thing, engine.Declaration):
        return thing.name, thing.marks
    if isinstance(thing, tuple):
        return (type(thing).__name__, *map(plain, thing))
    return thing


def same_but_for_names(one, other):
    """Whether two clauses are the same up to names of variables: some renaming takes one to the other, and variables that differ stay so."""
    there, back = {}, {}

    def same(x, y):
        if isinstance(x, engine.Variable) and isinstance(y, engine.Variable):
            return there.setdefault(x.number, y.number) == y.number and back.setdefault(y.number, x.number) == x.number
        if isinstance(x, tuple) and isinstance(y, tuple):
            return type(x) is type(y) and len(x) == len(y) and all(map(same, x, y))
        return x == y

    return same((one.head, one.body), (other.head, other.body))


def same_sheets(one, other):
    modes = [[(name, marks) for name, marks, _ in sheet.declarations] for sheet in (one, other)]
    pairs = zip(one.clauses, other.clauses)
    return modes[0] == modes[1] and len(one.clauses) == len(other.clauses) and all(same_but_for_names(*pair) for pair in pairs)


def equal_exactly(rng, count):
    """Holds pairs of accepted sheets to REQUESTS (iv): their outputs are equal exactly where they are the same but for names and zeros; each output reads
    back as the same sheet. Prints how many pairs are equal."""
    equal = different = 0
    while equal + different < count:
        texts = [chance_sheet(rng)]
        texts.append(changed(rng, texts[0]))
        outputs = [engine.afresh(text, MOST) for text in texts]
        if any(isinstance(output, engine.Refusal) for output in outputs):
            continue
        sheets = list(map(engine.checked_sheet, texts))
        assert (outputs[0] == outputs[1]) == same_sheets(*sheets), texts
        for sheet, output in zip(sheets, outputs):
            assert plain(engine.checked_sheet(output)) == plain(sheet), output
            assert engine.afresh(output, len(output)) == output, output
        if outputs[0] == outputs[1]:
            equal += 1
        else:
            different += 1
    print("%d pairs of sheets: %d written alike, %d not" % (count, equal, different))


def make(add, rng):
    def add_bytes(sheet, room):
        add(as_bytes(sheet), room)

    worked_examples(add_bytes)
    small_things(add_bytes)
    names(add_bytes)
    numerals(add_bytes)
    limits(add_bytes)
    full_outputs(add_bytes)
    by_chance(add_bytes, rng)
    checked_sheets(add_bytes)
