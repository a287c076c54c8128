"""Cases for REQUESTS (xii), at most one end: sheets ("D"); and runs over sheets that get a yes."""

from itertools import combinations, product

import check_cases
import engine
import examples
import random_sheets
import written

SEED = 1_202
ALLOWANCES, WANTED, ROOM = (1, 3, 9, 27, 81, 2_000), 64, 8_192

TERMS = [
    "X", "Y", "_", "a", "b", "1", "01", "10", "f", "f(X)", "f(Y)", "f(a)", "f(1)", "f(f(X))", "f(f(a))", "f(g(X))", "g(X)", "g(01)",
    "f(X,Y)", "f(Y,X)", "f(X,X)", "f(_,_)", "f(a,Y)", "f(X,b)", "f(X,f(X))", "f(f(Y),Y)", "f(f(X,Y),X)", "f(f(a,b),Y)",
]
SMALL = ["X", "Y", "a", "b", "f(X)", "f(Y)", "f(a)"]
CHANCE = SMALL + ["X", "Y", "Z", "_", "f(f(X))", "f(Z)", "g(X,Y)", "g(Y,X)", "g(X,f(X))", "g(a,Z)", "g(_,b)", "7", "07"]


def variables(letter, count):
    return ["%s%d" % (letter, n) for n in range(count)]


def eights(terms, name="l"):
    """One list of terms in two layers, eight to a bracket."""
    return "%s(%s)" % (name, ",".join("%s(%s)" % (name, ",".join(terms[n : n + 8])) for n in range(0, len(terms), 8)))


def nested(depth, inside, name="f"):
    return (name + "(") * depth + inside + ")" * depth


def sheet_of(marks, *argument_lists):
    """A clause of p for each list of arguments."""
    heads = (random_sheets.atom("p", list(arguments)) + "." for arguments in argument_lists)
    return check_cases.marked("p", marks) + "".join(heads)


def worked_examples(add):
    for sheet, _ in examples.DETERMINATE:
        add(sheet)
    for sheet, _ in examples.CHECKS:
        add(sheet)
    for *_, sheet, _, _ in examples.RUNS + examples.SETTINGS + examples.STORED:
        add(sheet)


def one_argument(add):
    """Every pair of small terms as the one + argument, in each order."""
    for one, other in product(TERMS, repeat=2):
        add(sheet_of("+", [one], [other]))
    for one, other in product(examples.NUMERALS, repeat=2):
        add(sheet_of("+", [one], [other]))
    for one, other in product(examples.NUMERALS, ["0", "7", "a7"]):
        add(sheet_of("++", ["X", "f(X,%s)" % one], ["Y", "f(%s,Y)" % other]))


def several_arguments(add, rng):
    """Every two pairs of small terms; three and four terms by chance."""
    for terms in product(SMALL, repeat=4):
        add(sheet_of("++", terms[:2], terms[2:]))
    for count, number in ((3, 1_500), (4, 700)):
        for _ in range(number):
            add(sheet_of("+" * count, rng.choices(CHANCE, k=count), rng.choices(CHANCE, k=count)))


def marks(add):
    """Heads that differ in any of the arguments under any marks; in eight arguments, in one of them."""
    for three in product("+-*", repeat=3):
        for differ in product((False, True), repeat=3):
            add(sheet_of(three, "aaa", ["b" if d else "a" for d in differ]))
        add(sheet_of(three, "abc"))
    for place, mark in product(range(8), "+-*"):
        for others in "+-*":
            eight = others * place + mark + others * (7 - place)
            add(sheet_of(eight, "a" * 8, "a" * place + "b" + "a" * (7 - place)))
            add(sheet_of(eight, "abcdefgh", "hgfedcba"))
    for place in range(8):  # the one clash is found only with the first argument's value
        one, other = ["a"] * 8, ["Y%d" % n for n in range(8)]
        one[0], one[place], other[0], other[place] = "X", "f(X,a)", "Y", "f(b,Y)"
        add(sheet_of("+" * 8, one, other))
        add(sheet_of("+" * place + "*" + "+" * (7 - place), one, other))


def predicates(add):
    """One name with 0 to 8 arguments, each with a clause; one of them with two; names that begin alike; clauses of two predicates in any order."""
    modes = [check_cases.marked("p", "+" * n) for n in range(9)]
    heads = [random_sheets.atom("p", ["X"] * n) + "." for n in range(9)]
    add("".join(modes + heads))
    for n in range(9):
        add("".join(modes + heads) + random_sheets.atom("p", ["a"] * n) + ".")
        add("".join(modes + heads[n:] + heads[:n]) + heads[n])
    for names in (("p", "pp"), ("p", "p_"), ("p", "p1"), ("p1", "p01"), ("a" * 30, "a" * 31), ("true", "fail"), ("mode", "mod")):
        for ends in ("", "(X)", "(X,a)"):
            modes = "".join(":-mode %s." % (name + ends.replace("X", "+").replace("a", "-")) for name in names)
            add(modes + "".join(name + ends + "." for name in names))
            add(modes + "".join(name + ends + "." for name in names + names[1:]))
    for four in product(("p(a)", "p(b)", "p(X)", "q(a)", "q(Y)"), repeat=4):
        add(":-mode p(+).:-mode q(+).%s." % ".".join(four))
    for five in product("abX", repeat=5):
        add(sheet_of("+", *five))


def brackets(add):
    """A bracket at each place of a body, in each clause, nested, in several clauses; with an overlap before it, behind it and with itself."""
    for bodies in product(("", ":-true", ":-(true;fail)", ":-true,(fail;true)", ":-(true;(true;true)),true"), repeat=3):
        add(":-mode p(+).p(a)%s.p(b)%s.p(c)%s." % bodies)
        add(":-mode p(+).p(a)%s.p(a)%s.p(X)%s." % bodies)
    for place in range(16):
        body = ["true"] * 16
        body[place:place + 2] = ["(true;true)"]
        add(":-mode p(+).p(a).p(b):-%s." % ",".join(body[:15]))
    for depth in range(1, 18):
        for shape in ("(" * depth + "true" + ";true)" * depth, "(true;" * depth + "true" + ")" * depth):
            add(":-mode p(+).p(a).p(b):-%s." % shape)
    calls = ":-mode p(+).:-mode q(-).q(%s)%s.p(X):-q(X),%s."
    for first, last in product(("", ":-true", ":-(true;true)"), ("q(Y)", "(q(Y);true)", "(X=a;X=b)", "X=a", "X=f(Y),(p(X);p(Y))")):
        add(calls % ("a", first, last))


def distances(add):
    """Two clauses that overlap, at any distance among nine, with clauses of another predicate between; two such pairs; and far apart among 256."""
    for one, other in combinations(range(9), 2):
        heads = ["p(%s)" % "abcdefghi"[n] for n in range(9)]
        heads[other] = heads[one]
        add(":-mode p(+).%s." % ".".join(heads))
        add(":-mode p(+).:-mode q(+).%s." % ".".join("%s.q(%d)" % (head, n) for n, head in enumerate(heads)))
        heads[one] = "p(Y)"
        add(":-mode p(+).%s." % ".".join(heads))
    for one, other in combinations(combinations(range(5), 2), 2):
        heads = ["p(%s,%s)" % ("abcde"[n], "abcde"[n]) for n in range(5)]
        for first, second in (one, other):
            heads[second] = heads[first] if heads[second][2] == "abcde"[second] else "p(X,Y)"
        add(":-mode p(+,+).%s." % ".".join(heads))
    for one, other in ((0, 255), (0, 1), (254, 255), (127, 128), (1, 254), (100, 255), (0, 128)):
        heads = ["p(%d)" % n for n in range(256)]
        heads[other] = "p(0%d)" % one
        add(":-mode p(+).%s." % ".".join(heads))
        heads[other] = "p(X):-(true;true)"
        add(":-mode p(+).%s." % ".".join(heads))


def many(add):
    """256 clauses of one predicate all apart, and the last two not; the same of 64 predicates; 257; heads apart only at the end of a large term."""
    for form in ("p(%d)", "p(f(X,g(%d)))", "p(%d,X)", "p(X,%d)", "p(X,f(X,%d,Y))"):
        marks = "+,+" if "," in form.replace("f(X,g", "").replace("f(X,%d,Y)", "") else "+"
        heads = [form % n for n in range(256)]
        add(":-mode p(%s).%s." % (marks, ".".join(heads)))
        add(":-mode p(%s).%s.%s." % (marks, ".".join(heads[:255]), heads[254]))
        add(":-mode p(%s).%s." % (marks, ".".join(heads + [form % 256])))
    modes = "".join(":-mode p%d(+,*)." % n for n in range(64))
    heads = ["p%d(%s,b)" % (n % 64, "acde"[n // 64]) for n in range(256)]
    add(modes + ".".join(heads) + ".")
    for n in (191, 0, 63):
        add(modes + ".".join(heads[:255]) + ".p%d(a,c)." % (n % 64))
    add(modes + ".".join(heads) + ".p(a,b).")
    for count, ends in ((55, "%d"), (55, "X"), (256, "%d")):
        large = "f(" + ",".join(["g(a,X,b,Y)"] * (2 if count == 256 else 8)) + ")"
        heads = ["p(%s,%s)" % (large, ends.replace("%d", str(n))) for n in range(count)]
        add(":-mode p(+,+).%s." % ".".join(heads))


def depths(add):
    """Terms with up to 16 brackets open, apart, together and against the occurs check, at the innermost place."""
    for depth in range(14, 17):
        for one, other in product(("a", "b", "X", "g(X)"), repeat=2):
            add(sheet_of("+", [nested(depth - 1, one)], [nested(depth - 1, other)]))
        add(sheet_of("++", ["X", "X"], ["Y", nested(depth - 1, "Y")]))
        add(sheet_of("++", ["X", "X"], ["Y", nested(depth - 1, "Z")]))
        add(sheet_of("++", [nested(depth - 1, "X"), "X"], ["Y", nested(depth - 1, "Y")]))
        add(sheet_of("++", [nested(depth - 1, "X"), "X"], ["Y", nested(depth - 1, "Z")]))


def shared(add):
    """Values that double at each of so many variables, two of them compared; equal, apart at one leaf, and one inside the other."""
    for count in (2, 8, 20, 31):
        xs, ys = variables("X", count), variables("Y", count)
        rows = [eights(xs[1:] + ys[1:])] + [eights(["f(%s,%s)" % (name, name) for name in xs[:-1] + ys[:-1]])]
        last = xs[-1], ys[-1]
        for extra in ((), (xs[0],), (xs[0], ys[0])):
            for values in product("ab", repeat=len(extra)):
                one = [*rows, "g(%s,%s)" % last, eights(list(extra)) if extra else "l"]
                other = ["V", "V", "g(W,W)", eights(list(values)) if values else "l"]
                add(sheet_of("++++", one, other))
                add(sheet_of("++*+", one, other))
        add(sheet_of("++++", [*rows, "g(%s,%s)" % last, "g(%s)" % xs[0]], ["V", "V", "g(W,W)", "U"]))
        add(sheet_of("++++", [*rows, "g(%s,%s)" % last, ys[0]], ["V", "V", "g(W,W)", "f(U)"]))
        add(sheet_of("++++", [*rows, "g(%s,%s)" % (xs[0], last[1]), "a"], ["V", "V", "g(W,W)", "a"]))
        add(sheet_of("++++", [*rows, "g(%s,%s)" % last, "g(%s,%s)" % (xs[-1], xs[0])], ["V", "V", "g(W,W)", "g(U,U)"]))


def chains(add):
    """64 variables in each clause, made equal in a chain through both: the ends apart, together, and one inside the other."""
    for count in (8, 63, 64):
        xs, ys = variables("X", count), variables("Y", count)
        for ends in (("a", "b"), ("a", "a"), ("Q", "f(Q)"), ("a", "f(a)")):
            one, other = eights(xs), eights(ys)
            shifted = eights(ys[1:] + ys[:1])
            tied = sheet_of("++++", [one, eights(xs), xs[0], xs[-1]], [other, shifted, *ends])
            loose = sheet_of("++++", [one, eights(xs[1:] + ["b"]), xs[0], xs[-1]], [other, other, *ends])
            for sheet in (tied, loose):
                add(sheet)
    for count in (1, 8, 63, 64, 65):
        xs = variables("X", count)
        add(sheet_of("+", [eights(xs)], [eights(["a"] * count)]))
        add(sheet_of("+", [eights(xs)], [eights(["Y"] * count)], [eights(xs[::-1])]))
        add(sheet_of("+", [eights(["X"] * count)], [eights(["a"] * (count - 1) + ["b"])]))


def full_sheets(add):
    """16,384 bytes: a yes, a pair, a bracket; and one byte more."""
    start = ":-mode p(+)." + "".join("p(%s)." % nested(5, str(n)) for n in range(200))
    for last in ("p(X)", "p(z):-(true;true)", "p(z)"):
        add((start + last + ".").ljust(16_384))
    add((start + "p(z).").ljust(16_385))


def refused(add):
    """Every refusal of a sheet beside a yes, an overlap and a bracket."""
    faults = [
        "!", "p" * 32 + ".", "q(", "q(a,a,a,a,a,a,a,a,a).", "q:-%strue." % ("(" * 17), "q(%s)." % nested(16, "a"),
        ":-mode p(+).", ":-mode true.", ":-mode fail.", "q.", "p.", "p(c):-q.",
        "p(c):-(true;q(X)).", ":-mode q.", ":-mode seen(+,+,+).", ":-mode seen(+).",
        "p(c):-p(X).", "p(c):-(p(X);true).", "p(c):-(X=a;true),p(X).", ":-mode q(-).q(X).",
        ":-mode q(-).q(X):-(X=a;true).", ":-mode q(-).q(X):-(X=a;fail).", ":-mode q(+,-).q(X,X).",
        ":-mode q(+,-).q(X,Y):-f(X,Z)=f(Z,Y).", "p(X):-%s." % ",".join(["true"] * 17),
    ]
    for fault, (one, other) in product(faults, (("p(a).", "p(b)."), ("p(a).", "p(X)."), ("p(a).", "p(b):-(true;fail)."))):
        add(":-mode p(+)." + one + fault + other)
        add(":-mode p(+)." + one + other + fault)


def chance_clauses(rng, most_literals, bracketed):
    """Lines of a sheet that the mode rules accept: few predicates, with a + argument most of them, of many clauses."""
    predicates, clauses = random_sheets.random_predicates(rng, "+++--*"), []
    for _ in range(rng.choice((2, 3, 4, 5, 6, 9, 14))):
        maker = random_sheets.ClauseMaker(rng)
        maker.brackets = int(rng.random() < bracketed)
        clauses.append(maker.clause(rng.choice(predicates), rng.randint(0, most_literals), predicates))
    return random_sheets.declarations(predicates) + clauses


def parsed(lines):
    return engine.parsed_sheet("\n".join(lines).encode())


def apart(lines):
    """The lines without the clauses that have a bracket or overlap with one before."""
    sheet = parsed(lines)
    left_out = set(engine.bracketed_clauses(sheet))
    left_out.update(other for one, other in engine.overlaps(sheet) if one not in left_out)
    first = len(sheet.declarations) - 1
    return [line for at, line in enumerate(lines) if at - first not in left_out]


def by_chance(add, rng):
    """As they come; with all clauses apart; and with one more clause, which is new or there already."""
    made = 0
    while made < 550:
        lines = chance_clauses(rng, 1, bracketed=0.05)
        single = apart(lines)
        more = single + [rng.choice((lines[-1], rng.choice(lines)))]
        if len("\n".join(lines)) < 400:
            made += 1
            add("\n".join(single) if made % 20 == 0 else written.completed("\n".join(lines)))
            add(written.completed("\n".join(single)))
            add(written.completed("\n".join(more)))
    for _ in range(230):
        add(written.completed("\n".join(random_sheets.well_marked_sheet(rng)[0])))
        add(written.completed("\n".join(random_sheets.damaged(rng, apart(chance_clauses(rng, 1, bracketed=0.05))))))
        add(written.completed("\n".join(random_sheets.chance_sheet(rng, "++-*", facts=0.8)[0])))


def spelt(term, variable):
    """The term as text; variable() gives what stands for each variable."""
    if isinstance(term, engine.Variable):
        return variable()
    return random_sheets.atom(term.name.decode(), [spelt(part, variable) for part in term.arguments])


def chance_goal(rng, sheet):
    """Calls that some clause's head was made for: its + arguments ground, a variable in the place of each other; and now and then an equation."""
    marks, names, literals = engine.marks_by_predicate(sheet), iter("XYZUVWABCDEFGHIJKLMN"), []
    known = []

    def ground():
        return rng.choice(known + ["a", "b", "z", "s(z)"]) if rng.random() < 0.8 else "f(a,%s)" % rng.choice("abz")

    for _ in range(rng.choice((1, 1, 1, 2, 2, 3))):
        head = rng.choice(sheet.clauses).head
        its = marks[engine.predicate_of(head)]
        made = {at: next(names) for at, mark in enumerate(its) if mark != "+"}
        arguments = [made.get(at) or spelt(term, ground) for at, term in enumerate(head.arguments)]
        literals.append(random_sheets.atom(head.name.decode(), arguments))
        known += [name for at, name in made.items() if its[at] == "-"]
        if rng.random() < 0.15:
            literals.append("%s = %s" % (next(names), ground()))
    return ", ".join(literals) + "."


def single_runs(rng):
    """Without end: a sheet, the sheet without its clauses that speak against it, which gets a yes, and a goal without brackets over that one."""
    while True:
        lines = chance_clauses(rng, 2, bracketed=0.1)
        if rng.random() < 0.3:
            lines, _ = random_sheets.well_marked_sheet(rng)
        several, single = (written.completed("\n".join(some)) for some in (lines, apart(lines)))
        if engine.determinate(single) == engine.Yes():
            goal = chance_goal(rng, engine.parsed_sheet(single)).encode()
            if isinstance(engine.check_goal(single, goal), engine.Accepted):
                yield several, single, goal


def at_most_one_line(rng, count):
    """Holds runs over sheets that get a yes to REQUESTS (xii), at several allowances, and prints how many have a line, and how many would
    have more with the clauses left out."""
    one = more = 0
    for _, (several, single, goal) in zip(range(count), single_runs(rng)):
        for allowance in ALLOWANCES:
            report = engine.run(single, goal, allowance, WANTED, ROOM)
            assert report.answers <= 1 and report.text.count(b"\n") == report.answers, (single, goal, report)
        one += report.answers
        other = engine.run(several, goal, ALLOWANCES[-1], WANTED, ROOM)
        more += isinstance(other, engine.Report) and other.answers > 1
    print("%d goals over sheets that get a yes, at %d allowances each: %d have one line, none more;" % (count, len(ALLOWANCES), one))
    print("over the sheets from which those were made, with all clauses, %d have more" % more)


def make(add, rng):
    worked_examples(add)
    one_argument(add)
    several_arguments(add, rng)
    marks(add)
    predicates(add)
    brackets(add)
    distances(add)
    many(add)
    depths(add)
    shared(add)
    chains(add)
    full_sheets(add)
    refused(add)
    by_chance(add, rng)
