"""Cases for checking: sheets ("C") and goals over sheets ("K")."""

import random
from itertools import product

import examples
import random_sheets
import written

SEED = 1_705
TERMS = [
    "X", "Y", "_", "a", "b", "1", "f(X)", "f(Y)", "f(a)", "g(X)", "g(a)", "f(X,Y)",
    "f(Y,X)", "f(a,Y)", "f(X,X)", "f(Y,a)", "f(f(X),Y)", "f(f(Y),a)",
]
LITERALS = [
    "true", "fail", "X = Y", "Y = a", "a = b", "X = X", "f(X,Y) = f(Y,a)",
    "f(Y,X) = f(a,Y)", "i(X)", "o(X)", "i(Y)", "o(Y)", "io(X,Y)", "io(Y,X)", "n(X)",
]
SIDES = ["true", "fail", "a = b", "X = a", "Y = a", "X = Y", "i(X)", "o(X)", "o(Y)", "io(Y,X)"]
LITERAL_MODES = ":-mode p(-).:-mode i(+).:-mode o(-).:-mode io(+,-).:-mode n(*)."


def variables(count):
    return ["V%d" % n for n in range(count)]


def marked(name, marks):
    return ":-mode " + random_sheets.atom(name, list(marks)) + "."


def worked_examples(add):
    for sheet, _ in examples.CHECKS:
        add("C", sheet)
        if len(sheet) != 16_384:
            add("K", sheet, b"p(")
        if len(sheet) < 16_384:
            add("K", sheet, b"true.")
    for goal, _ in examples.GOALS:
        add("K", b":-mode p. p.", goal)
    for *_, sheet, goal, _ in examples.RUNS + examples.SETTINGS + examples.STORED:
        add("C", sheet)
        add("K", sheet, goal)


def equations(add):
    """Every pair of small terms, with Y unknown and with Y known."""
    for left, right in product(TERMS, repeat=2):
        add("C", ":-mode p(-). p(X) :- %s = %s." % (left, right))
        add("C", ":-mode p(+,-). p(Y,X) :- %s = %s." % (left, right))
    for left, right in (
        ("f(X,g(Y,Z),Y)", "f(Y,g(a,Y),a)"), ("f(Z,Y,X)", "f(a,Z,Y)"), ("f(X,Y,Z)", "f(Y,Z,a)"),
        ("f(g(X),h(Y))", "f(Y,h(a))"), ("f(h(Y),g(X))", "f(h(a),Y)"), ("f(Y,g(Y))", "f(a,X)"),
        ("f(X,1)", "f(X,2)"), ("f(X,f(a,b))", "f(Y,f(a))"), ("f(1,01)", "f(1,1)"),
        ("f(g(g(X)),a)", "f(g(h(Y)),a)"), ("f(X,X)", "f(Y,g(a))"), ("f(X,X)", "f(g(Y),g(a))"),
        ("f(g(X,Y),g(Y,Z))", "f(Z,g(a,a))"), ("s(s(s(s(X))))", "s(s(s(s(a))))"),
        ("s(s(s(s(X))))", "s(s(s(z)))"), ("f(_,X)", "f(a,_)"), ("true", "X"), ("fail", "fail"),
    ):
        for order in ((left, right), (right, left)):
            add("C", ":-mode p(-). p(X) :- %s = %s." % order)
            add("C", ":-mode p(-,-,-). p(X,Y,Z) :- %s = %s." % order)
            add("C", ":-mode p(+,-,-). p(X,Y,Z) :- %s = %s." % order)
            add("C", ":-mode p(-). :-mode q(+,+). p(X) :- %s = %s, q(X,Y)." % order)
            add("K", ":-mode q(+,+).", "%s = %s, q(X,Y)." % order)


def numerals(add):
    """Spellings with and without leading zeros, and names with the same digits, on both sides."""
    for left, right in product(examples.NUMERALS, repeat=2):
        add("C", ":-mode p(-). p(X) :- %s = %s." % (left, right))
    for left, right in product(examples.NUMERALS, ["0", "7", "a7"]):
        add("C", ":-mode p(+). p(X) :- f(%s,X) = f(%s,Y), p(Y), p(Z)." % (left, right))
        add("K", ":-mode p(+).", "f(%s) = f(%s), p(Y)." % (left, right))


def literal_orders(add, rng):
    for body in product(LITERALS, repeat=2):
        add("C", LITERAL_MODES + "p(X) :- %s." % ", ".join(body))
    for body in rng.sample(list(product(LITERALS, repeat=3)), 160):
        add("C", LITERAL_MODES + "p(X) :- %s." % ", ".join(body))
        add("K", LITERAL_MODES, ", ".join(body) + ".")


def mark_pairs(add, rng):
    """A head and a call over all pairs of marks: outputs give nothing to the
    inputs of their own call, * variables of a head are not known."""
    pairs = list(product(random_sheets.MARKS, repeat=2))
    arguments = list(product(("X", "Y", "Z", "a", "f(Y)", "f(X,Y)", "_"), repeat=2))
    for head_marks, call_marks in product(pairs, repeat=2):
        for call in rng.sample(arguments, 4):
            sheet = marked("q", head_marks) + marked("p", call_marks)
            add("C", sheet + "q(X,Y) :- p(%s,%s)." % call)
        head = rng.choice(arguments)
        add("C", marked("q", head_marks) + "q(%s,%s)." % head)
        add("K", marked("p", head_marks) + marked("q", call_marks), "p(%s,%s), q(X,Y)." % head)


def wide_atoms(add):
    """Eight arguments: each mark at each place, one argument open."""
    for place in range(8):
        terms = ["a"] * 8
        terms[place] = "f(X)"
        atom = "p(%s)" % ",".join(terms)
        for mark in random_sheets.MARKS:
            modes = marked("p", "*" * place + mark + "*" * (7 - place)) + ":-mode q."
            add("C", modes + atom + ".")
            add("C", modes + "q :- %s." % atom)
            add("K", modes, atom + ".")
            add("C", modes + "q :- X = a, %s. %s :- q." % (atom, atom))
        for marks in ("+" * 8, "-" * 8, "+-" * 4, "-+" * 4, "++--**+-"):
            modes = marked("p", marks) + ":-mode q."
            add("C", modes + "q :- true, %s." % atom)
            add("C", modes + atom + " :- q.")
            add("C", modes + "p(%s) :- %s." % (",".join(variables(8)), atom))
            add("C", modes + "p(%s) :- p(%s)." % ((",".join(variables(8)),) * 2))
            add("K", modes, atom + ".")
    for marks in ("+-*+-*+-", "-*+-*+-*", "*+-*+-*+"):
        modes = marked("p", marks)
        for names in (variables(8), ["X"] * 8, ["a", "X"] * 4, ["_"] * 8):
            add("C", modes + "p(%s)." % ",".join(names))
            add("K", modes, "p(%s), p(%s)." % ((",".join(names),) * 2))


def fault_places(add):
    """9 at each literal and argument, 10 at each argument, 8 at each literal."""
    modes = marked("p", "+" * 8) + ":-mode q."
    for place in range(1, 17):
        body = ["true"] * 16
        body[place - 1] = "p(a,a,a,a,a,a,a,X)" if place % 2 else "p(a,X,Y,_,a,a,a,X)"
        add("C", modes + "q. q :- " + ", ".join(body) + ".")
        add("K", modes, ", ".join(body) + ".")
        body[place - 1] = ("r(X)", "p", "q(a)", "true(X)", "fail(a)")[place % 5]
        add("C", modes + "q. q :- " + ", ".join(body) + ".")
        add("K", modes, ", ".join(body) + ".")
        body[place - 1] = "X = a"
        add("C", modes + "q :- " + ", ".join(body[:15] + ["p(X,X,X,X,X,X,X,X)"]) + ".")
    for place in range(8):
        terms = ["a"] * 8
        terms[place:] = ["X"] * (8 - place)
        heads = "p(b,b,b,b,b,b,b,b). p(%s)." % ",".join(terms)
        add("C", marked("p", "-" * 8) + heads)


def undeclared(add):
    for text in (
        "p.", "p :- q.", ":-mode p. p :- q.", ":-mode q. p :- q.", ":-mode p(+). p.",
        "true :- true.",
        ":-mode p. p :- p(a).", ":-mode p. p :- true, fail, a = b, p(_), p.", "fail.", "fail(X).",
        ":-mode p. p :- true = true, true, fail = X.", ":-mode p(+). p(X) :- fail(X).",
        ":-mode fail(+). :-mode p(+). p(X) :- fail(X).", ":-mode true(-). true(X). true(a).",
        ":-mode p(-). p(X). q.", ":-mode p(+). p(a) :- p(X). p(b) :- r.", "p. :-mode p. :-mode p.",
        "q. p :- r. !", "q. p(a,b", "p :- q(X), r(X). :-mode p.", ":-mode p. p. p :- p, p2.",
        "mode. :-mode p.", ":-mode p. p(X) :- p. p :- p(X).", ":-mode a_B9. a_B9. a_b9.",
    ):
        add("C", text)
        add("K", text, "p.")
        add("K", text, "p(X), q.")
        add("K", text, "true, p(X,Y)")
    goals = ("q.", "p.", "p(a).", "p(X).", "p(a), q(X).", "p(X), q.", "true(a).", "X = Y, p(Y).")
    sheets = ("", ":-mode p(+).", ":-mode p(-).", ":-mode q. :-mode p(+).",
              ":-mode p(+). p(X) :- q.")
    for sheet, goal in product(sheets, goals):
        add("K", sheet, goal)


def known_late(add, start):
    """Variables met after so many others: known by a head's input, an equation, a call's output, and not known."""
    before = ["W%d" % n for n in range(start)]
    padding = ["n(%s)" % ",".join(before[n : n + 8]) for n in range(0, start, 8)]
    modes = ":-mode p(+,-). :-mode o(-). :-mode i(+). " + "".join(
        ":-mode n(%s). " % ",".join("*" * size) for size in sorted({len(before[n : n + 8]) for n in range(0, start, 8)})
    )
    for last in ("X = Y", "o(Y)", "Y = f(Z), o(Z)", "f(Y,Z) = f(Z,a)", "f(Z,Y) = f(a,Z)", "true", "i(X), o(Y)", "i(Y)", "o(Z), Z = Y", "fail"):
        add("C", modes + "p(X,Y) :- %s." % ", ".join(padding + [last]))
        add("C", modes + "p(f(%s),Y) :- %s." % (",".join(before[:8] + ["X"][: 8 - len(before[:8])]) or "X", ", ".join(padding + [last])))
        add("K", modes + "p(a,b). o(a). i(a).", ", ".join(padding + [last, "p(Y,Q)"]) + ".")


def many_variables(add):
    """64 variables: chains of equations, whole and with one link missing, and what is known ground at numbers 32 to 63 in every rule."""
    for start in (0, 31, 32):
        known_late(add, start)
    names = variables(32)
    pairs = ("f({1},{2}) = f({0},{1})", "f({2},{1}) = f({1},{0})")
    for first, marks in (("a", "-" * 8), ("V31", "-" * 8), ("a", "*" * 8), ("_", "-" * 8)):
        for gap, pair in product((0, 1, 7, 8, 15, 16), pairs):
            links = [pair.format(*names[n : n + 3]) for n in range(0, 30, 2)]
            links.insert(0, "V0 = " + first)
            if gap:
                del links[gap - 1]
            head = "p(%s)" % ",".join(names[gap : gap + 8])
            add("C", marked("p", marks) + head + " :- " + ", ".join(links) + ".")
            add("K", marked("p", marks.replace("-", "+")), ", ".join(links[:15] + [head]) + ".")
    blanks = "f(%s)" % ",".join("_" * 8)
    for body in ("fail", "a = b", "true", "X = " + blanks, blanks + " = f(a,b,c,d,e,f,g,h)"):
        head = "p(%s,_,_,_,_,_,_,X)" % blanks
        add("C", ":-mode p(%s). %s :- %s." % (",".join("-" * 8), head, body))
        add("C", ":-mode p(%s). %s :- %s." % (",".join("-" + "*" * 7), head, body))


def many_items(add):
    modes = ["p%d" % n for n in range(64)]
    declared = "".join(":-mode %s(+,-).\n" % name for name in modes)
    for count in (255, 256):
        facts = ["p%d(a,X) :- X = a.\n" % (n % 64) for n in range(count)]
        lasts = facts[-1], "p63(X,_).", "p63(a,X).", "p63(X,Y) :- p62(Y,X).", "p64(a,b)."
        for last in lasts if count == 256 else lasts[:2]:
            add("C", declared + "".join(facts[:-1]) + last)
        add("C", "".join(facts) + declared)
        add("K", declared + "".join(facts), "p63(a,X), p0(X,Y), p7(Y,_).")
        add("K", declared + "".join(facts), "p63(a,X), p0(Y,X).")
    add("C", "".join(marked("q", "+" * n) for n in range(9)))
    for count in (1, 63, 64, 65):
        add("C", "".join(":-mode p%d. p%d :- p0.\n" % (n, n) for n in range(count)))
        add("C", "".join(":-mode p%d. p%d :- p%d.\n" % (n, n, n + 1) for n in range(count)))


def open_places(add):
    """The first open variable at every place of an argument, and of a nested term."""
    inner = ("X", "Y", "_", "f(X,Y)", "f(Y,X)", "f(X,X)", "f(_,_)", "f(a,g(h(Y),X))", "f(g(X),g(Y),_)")
    for term in inner:
        for known in ("true", "X = a", "Y = a", "X = a, Y = b", "X = Y"):
            add("C", ":-mode p(-). p(%s) :- %s." % (term, known))
            add("C", ":-mode p(*,-). p(f(Y,X),%s) :- %s." % (term, known))
            add("C", ":-mode p(+). :-mode q. q :- %s, p(%s)." % (known, term))
            add("C", ":-mode p(*,+). :-mode q(*). q(X) :- %s, p(f(Y,X),%s)." % (known, term))
            add("K", ":-mode p(+).", "%s, p(%s)." % (known, term))
            add("K", ":-mode p(*,+).", " %s ,\n p( g(X,Y) , %s )." % (known, term))
    for width in range(1, 9):
        for place in range(width):
            arguments = ["a"] * place + ["f(a,g(Y),X)"] + ["Z"] * (width - place - 1)
            nested = random_sheets.atom("f", arguments)
            for mark in "+-*":
                marks = marked("p", mark * width) + marked("r", "-") + marked("q", "")
                add("C", marks + random_sheets.atom("p", arguments) + " :- r(Y).")
                add("C", marks + "q :- r(Y), " + random_sheets.atom("p", arguments) + ".")
                add("K", marks, "r(Y), " + random_sheets.atom("p", arguments) + ".")
            add("C", marked("p", "-") + "p(" + nested + ").")
            add("K", marked("p", "+"), "Y = a, p(" + nested + ").")


def nested(terms):
    """A term with these inside, at most eight to a list."""
    while len(terms) > 8:
        terms = ["g(%s)" % ",".join(terms[n : n + 8]) for n in range(0, len(terms), 8)]
    return "f(%s)" % ",".join(terms)


def chains(add):
    """f(X,Y,Z) = f(Y,Z,a) of every length to 64, in the worst order, behind it the first variable as a head's output, an input, in a goal; at some
    lengths also all of them, a chain that stays unknown, one that is cut in the middle, and one that the head makes known."""
    letters = [chr(65 + n) for n in range(26)]
    names = letters + [one + other for one in letters for other in "01"]
    for length in range(1, 65):
        chain = names[:length]
        body = "%s = %s" % (nested(chain), nested(chain[1:] + ["a"]))
        add("C", ":-mode p(-).p(A):-%s." % body)
        add("C", ":-mode p(+).:-mode q.q:-%s,p(A)." % body)
        add("K", ":-mode p(+).", "%s,p(A)." % body)
        if length in (2, 3, 8, 9, 17, 32, 64):
            cut = chain[1:] + ["a"]
            cut[length // 2] = chain[length // 2]
            for last in (chain[1:] + [chain[0]], cut):
                body = "%s = %s" % (nested(chain), nested(last))
                add("C", ":-mode p(-). p(%s) :- %s." % (nested(chain[::-1]), body))
                add("K", ":-mode p(+).", "%s, p(%s)." % (body, nested(chain[::-1])))
            body = "%s = %s" % (nested(chain), nested(chain[1:] + [chain[-1]]))
            add("C", ":-mode p(+,-). p(%s,A) :- %s." % (chain[-1], body))
            add("C", ":-mode p(+,-). p(A,%s) :- %s." % (chain[-1], body))


def chance_equations(add, rng):
    """Equations of nested terms over a few variables, some of them known before; every variable an output or an input behind them."""
    names = variables(5)

    def term(depth):
        if depth == 0 or rng.random() < 0.5:
            return rng.choice(names + ["a", "a"])
        return random_sheets.atom(rng.choice("fffg"), [term(depth - 1) for _ in range(rng.choice((1, 2, 2, 2, 3)))])

    def partner(left):
        """A term that as a rule falls into pairs with the left one."""
        if "(" not in left or rng.random() < 0.3:
            return rng.choice(names + ["a", left])
        inside, parts, level = left[2:-1], [""], 0
        for sign in inside:
            level += (sign == "(") - (sign == ")")
            if sign == "," and level == 0:
                parts.append("")
            else:
                parts[-1] += sign
        return random_sheets.atom(left[0], [partner(part) for part in parts])

    for _ in range(90):
        body = []
        for _ in range(rng.choice((1, 1, 1, 2))):
            left = random_sheets.atom("f", [term(2) for _ in range(rng.randint(2, 5))])
            right = partner(left)
            body.append("%s = %s" % rng.choice(((left, right), (right, left))))
        marks = ["-"] * 5
        for _ in range(rng.choice((0, 0, 1, 2))):
            marks[rng.randrange(5)] = "+"
        add("C", marked("p", marks) + random_sheets.atom("p", names) + " :- %s." % ", ".join(body))
        add("K", marked("p", "+" * 5), "%s, %s." % (", ".join(body), random_sheets.atom("p", names)))


def one_missing(count, place):
    """So many declarations, then a clause for each but one."""
    names = ["%s%s" % (chr(97 + n % 26), "xyz"[n // 26 - 1] if n > 25 else "") for n in range(count)]
    modes = "".join(":-mode %s." % name for name in names)
    return modes + "".join(name + "." for n, name in enumerate(names) if n != place)


def unwritten(add):
    """Declared predicates without a clause: each place among few and among many, which of several, against the other refusals, `seen`."""
    for count in range(65):
        for place in range(-1, count) if count < 7 or count == 64 else (count * 5 // 7,):
            add("C", one_missing(count, place))
    # the clauses in another order, and before the declarations
    for first, second, third in product(("p.", "q.", "r.", ""), repeat=3):
        add("C", ":-mode p. :-mode q. :-mode r. " + first + second + third)
        add("C", first + ":-mode p. " + second + ":-mode q. " + third + ":-mode r.")
    # one name with several numbers of arguments; names of which one begins the other
    for clause in ("p.", "p(a).", "p(a,b).", "p :- p(a).", "p(X) :- p.", "p(a,b) :- p, p(a)."):
        add("C", ":-mode p. :-mode p(+). :-mode p(*,*). " + clause)
        add("C", ":-mode p(*,*). :-mode p(+). :-mode p. " + clause)
    for name in ("p", "pp", "ppp", "pq", "qp"):
        add("C", ":-mode pp. :-mode p. :-mode pq. " + name + ".")
    # 7, 8, 9 and 10 in one sheet with 16
    modes = (":-mode p(+,-).", ":-mode q.", ":-mode u.")
    for again, clause in product(("", ":-mode p(-,-).", ":-mode q."), ("p(X,a).", "p(X,a) :- w.", "p(X,Y).", "p(X,a) :- p(Y,Z).", "q :- p(Y,Z).", "q. w.")):
        add("C", " ".join(modes) + again + clause)
        add("C", " ".join(modes) + again + clause + "q.u.p(a,a).")
        add("K", " ".join(modes) + again + clause, "p(")
        add("K", " ".join(modes) + again + clause + "q.u.p(a,a).", "q, u, w.")
    # exempt: `seen` with three arguments, called or not, with and without clauses
    for name, marks in product(("seen", "see", "seeN", "seen_", "sees", "Xseen"), ("", "+", "+,+", "+,+,+", "*,*,*", "-,-,-", "+,+,+,+")):
        listed = "(%s)" % marks if marks else ""
        add("C", ":-mode %s%s." % (name, listed))
        add("C", ":-mode p. :-mode %s%s. p." % (name, listed))
    for sheet in (":-mode seen(*,*,*).", ":-mode seen(+,+,-). seen(a,b,c).", ":-mode seen(-,-,-). seen(X,Y,Z).", ":-mode seen(*,*,*). :-mode seen(*). seen(a)."):
        add("C", sheet)
        add("K", sheet, "seen(X,Y,Z).")
        add("C", sheet + ":-mode p. p :- seen(a,b,X).")
        add("C", sheet + ":-mode p. :-mode q. p :- seen(a,b,X).")


def side_pairs(add):
    """Every pair of small sides: a head's output behind the bracket, an input behind it in a clause that knows Y, and in a goal."""
    for pair in product(SIDES, repeat=2):
        add("C", LITERAL_MODES + "p(X) :- (%s;%s)." % pair)
        add("C", LITERAL_MODES + "p(X) :- Y = b, (%s;%s), i(X)." % pair)
        add("K", LITERAL_MODES, "(%s;%s), i(X)." % pair)
    # which of three outputs each side gives
    subsets = [[name for bit, name in enumerate("XYZ") if chosen >> bit & 1] for chosen in range(8)]
    for left, right in product(subsets, repeat=2):
        sides = [",".join("%s=a" % name for name in side) or "true" for side in (left, right)]
        add("C", ":-mode p(-,-,-). p(X,Y,Z) :- (%s;%s)." % tuple(sides))


def bracket_shapes(add, rng):
    """Brackets in brackets, before, behind and between literals, one after the other."""
    shapes = [
        "((A;B);C)", "(A;(B;C))", "(A,(B;C);D)", "(A;(B;C),D)", "((A;B),C;D)", "(A;B),(C;D)", "A,(B;C),D", "(A,B;C,D)", "((A;B);(C;D))",
        "(((A;B);C);D)", "(A;(B;(C;D)))",
    ]
    for shape in shapes:
        for _ in range(16):
            names = dict(zip("ABCD", (rng.choice(LITERALS) for _ in range(4))))
            body = "".join(names.get(sign, sign) for sign in shape)
            if rng.random() < 0.7:
                add("C", LITERAL_MODES + "p(X) :- %s." % body)
            else:
                add("K", LITERAL_MODES, body + ", i(X).")


def sixteen(place, literal, shape):
    """Sixteen literals, `true` but for one, in brackets on the left, on the right, or two by two."""
    body = ["true"] * 16
    body[place - 1] = literal
    if shape == "left":
        return "(" * 15 + body[0] + "".join(";%s)" % one for one in body[1:])
    if shape == "right":
        return "".join("(%s;" % one for one in body[:-1]) + body[-1] + ")" * 15
    return ",".join("(%s;%s)" % (body[n], body[n + 1]) for n in range(0, 16, 2))


def bracket_places(add):
    """8 and 9 at each literal of sixteen in brackets; the open variable's byte; a call that only a bracket has; 64 variables."""
    modes = ":-mode p(*,+). :-mode q. "
    for place in range(1, 17):
        literals = ("p(X,X)", "r(X)", "p(X,_)") if place % 2 else ("p", "p(_,X)", "r")
        for shape, literal in zip(("left", "right", "pairs"), literals):
            add("C", modes + "q :- %s." % sixteen(place, literal, shape))
            add("K", modes, sixteen(place, literal, shape) + ".")
    for term in ("f(a,X)", "f(X,g(Y))", "f(g(a),_)", "g(f(Y,X),Z)"):
        for body in ("(p(a,%s);true)", "(X = a;p(a,%s))", "(X = a,p(a,%s);true)", "(X = a;X = b),p(X,%s)", "(Y = b;X = a),p(Y,%s)", "((true;Y = a,p(a,%s));true)"):
            add("C", modes + "q :- %s." % (body % term))
            add("K", modes, body % term + ".")
        for body in ("(X=a;Y=a)", "(X=a,Y=b;Y=a)", "(X=a;fail),Y=X", "(f(X,Y)=f(Y,a);(Y=b;Y=c),X=Y)"):
            add("C", ":-mode r(-). r(%s) :- %s." % (term, body))
    for body in ("(q;true)", "(true;q)", "((true;q);true)", "(q;q)", "(r;q)", "(p;p),q"):
        add("C", ":-mode p. :-mode q. p :- %s." % body)
        add("C", ":-mode p. :-mode q. p :- %s. q :- (p;p)." % body)
    names = variables(64)
    eights = ["n(%s)" % ",".join(names[n : n + 8]) for n in range(0, 64, 8)]
    for left, right in (("V63=a", "V63=b"), ("V63=a", "V62=b"), ("V63=a", "fail"), ("V32=V31", "V63=a"), ("V0=a,V63=V0", "V63=a"), ("V63=V62", "V62=a")):
        body = "%s,(%s;%s)" % (",".join(eights), left, right)
        add("C", ":-mode p(-). :-mode n(%s). p(V63) :- %s." % (",".join("*" * 8), body))
        add("K", ":-mode p(+). :-mode n(%s)." % ",".join("*" * 8), body + ",p(f(V32,V63)).")


def bracket_equations(add):
    """Equations that need further passes, in a side and in both; the bracket itself is not gone over again."""
    chains = ("f(X,Y)=f(Y,a)", "f(X,Y,Z)=f(Y,Z,a)", "f(X,Y)=f(Y,Z)", "f(Y,X)=f(a,Y)", "X=Y,Y=a", "Y=a,X=Y", "f(X,b)=f(Y,a)")
    for left, right in product(chains, repeat=2):
        add("C", ":-mode p(-). p(X) :- (%s;%s)." % (left, right))
    for chain in chains:
        for body in ("(%s;Z=a),X=Z", "(X=Y;X=Y),%s", "((%s;fail);(fail;X=b))", "(Z=a;Z=b),%s"):
            add("C", ":-mode p(-). p(X) :- %s." % (body % chain))
            add("K", ":-mode p(+). p(a).", "%s, p(X)." % (body % chain))


def by_chance(add, rng):
    """A clause for each predicate in most of them; with the others 16 comes before what they would be refused with."""
    full = written.completing(add, 1)
    for n in range(180):
        lines, predicates = random_sheets.well_marked_sheet(rng)
        goal = random_sheets.well_marked_goal(rng, predicates)
        put = full if n % 10 else add
        put("K", "\n".join(lines), goal)
        for _ in range(rng.randint(1, 2)):
            lines = random_sheets.damaged(rng, lines)
            put("C", "\n".join(lines))
        put("K", "\n".join(lines), random_sheets.chance_goal(rng, predicates))
    for n in range(310):
        lines, predicates = random_sheets.chance_sheet(rng)
        rng.shuffle(lines)
        put = full if n % 10 else add
        put("C", "\n".join(lines))
        modes = "\n".join(random_sheets.declarations(predicates))
        full("K", modes, random_sheets.chance_goal(rng, predicates))


def make(add, rng):
    full = written.completing(add, 1)
    worked_examples(add)
    equations(full)
    numerals(full)
    literal_orders(full, rng)
    mark_pairs(full, rng)
    wide_atoms(full)
    fault_places(full)
    undeclared(full)
    many_variables(full)
    many_items(full)
    by_chance(add, rng)
    open_places(full)
    chains(full)
    chance_equations(full, random.Random(SEED + 14))
    side_pairs(full)
    bracket_shapes(full, random.Random(SEED + 1))
    bracket_places(full)
    bracket_equations(full)
    unwritten(add)
