"""Cases for running: a sheet, a goal and the settings."""

import random
from itertools import product

import adversary
import determinacy_cases
import engine
import examples
import random_sheets
import written

SEED = 1_717
ALLOWANCE, WANTED, ROOM = 65_536, 16, 4_096  # the runner's own
SMALL_SHEET = 4_000  # bytes of a sheet of tests/adversary.py that is small
LARGE_KINDS = (  # the kinds of which a large one is run too
    "over-one-term", "over-many-terms", "light-pairs", "chains", "alternation", "leaves", "chained-alternation", "doubling",
)

# Sheets with goals; the first group is small enough for every edge.
SMALL = [
    ("", ["true.", "fail.", "true, true.", "X = a.", "a = b.", "X = f(X).", "X = Y, Y = Z.",
          "_ = _.", "f(X,Y) = f(Y,a).", "1 = 01.", "X = f(Y), Y = g(X).", "X = f(_,_), _ = X.",
          "f(X,g(X)) = f(g(Y),Y).", "f(A,B,C) = f(g(B,B),g(C,C),a).", "true = X, X = fail.",
          "X = f(Y,Y), Y = g(Z), Z = 0.", "f(f(X)) = f(f(f(Y))), X = X.", "_1 = _2, _2 = f(_3).",
          "Low_1 = f(Xx,_y), _y = rinse_2."]),
    (":-mode p. p.", ["p.", "p, p.", "p, fail.", "p, X = Y, p."]),
    (":-mode p. p. p. p :- fail. p :- true.", ["p.", "p, p."]),
    (":-mode p(-). p(a). p(b). p(c).", ["p(X).", "p(b).", "p(X), p(Y).", "p(X), X = b.",
                                       "p(X), p(X).", "p(_).", "p(X), p(Y), X = Y.", "p(f(X))."]),
    (":-mode p(*). p(a). p(X). p(f(X)).", ["p(X).", "p(f(Y)).", "p(X), p(f(X)).", "p(_), p(b)."]),
    (":-mode q(*,*). q(X,X).", ["q(A,B).", "q(A,f(A)).", "q(f(A,B),f(B,C)).", "q(A,B), A = a.",
                               "q(A,B), q(B,C), q(f(C),D).", "q(g(_),X)."]),
    (":-mode p(*,*). :-mode q(*). p(X,Y) :- q(X), q(Y). q(a). q(f(_)).",
     ["p(X,Y).", "p(f(b),Y).", "p(X,X).", "p(Z,f(Z))."]),
    (":-mode p(-). p(X) :- fail. p(X) :- a = b. p(X) :- X = a, X = b. p(X) :- f(X) = f(c).",
     ["p(X).", "p(c)."]),
    (":-mode n(-). n(z). n(s(X)) :- n(X).", ["n(X).", "n(s(s(Y)))."]),
    # bindings made before a unification fails
    (":-mode p(*,*). p(a,b). p(b,c). p(X,X). p(c,X).",
     ["p(X,c).", "p(X,Y), X = Y.", "p(Z,Z).", "p(X,Y), p(Y,X).", "p(X,f(X))."]),
    (":-mode p(*). p(X) :- f(X,a) = f(b,b). p(X) :- f(X,X) = f(Y,c). p(X) :- X = f(Y), Y = f(X).",
     ["p(X).", "p(b).", "p(c).", "p(f(X)), X = Y."]),
    # truth and falsehood with arguments are calls; one name, several predicates
    (":-mode true(-). :-mode fail(*). true(a). true(b). fail(X) :- true(X), true.",
     ["true(X), fail(X).", "fail(Y), true = Y."]),
    (":-mode p. :-mode p(-). :-mode p(-,-). p. p(1). p(1,2). p :- p(X). p(01). p(X,X) :- p(X).",
     ["p.", "p(X).", "p(X,Y)."]),
    # unbound variables by first appearance
    ("", ["X = f(A,B,C,D,E,F,G,H), Y = f(I,J,K,L,M,N,O,P).", "f(A,B,C) = f(C,A,D), E = g(B,F).",
          "Z = f(_,A,_), Y = f(A,_,Z)."]),
]
LARGER = [
    (":-mode plus(+,+,-). plus(z,N,N). plus(s(M),N,s(P)) :- plus(M,N,P).\n"
     ":-mode times(+,+,-). times(z,_,z). times(s(M),N,Q) :- times(M,N,P), plus(N,P,Q).",
     ["plus(s(s(z)),s(z),X).", "times(s(s(z)),s(s(s(z))),X).", "plus(a,z,X).",
      "X = s(s(z)), times(X,X,Y), plus(Y,X,Z)."]),
    (":-mode plus(-,-,+). plus(z,N,N). plus(s(M),N,s(P)) :- plus(M,N,P).",
     ["plus(X,Y,s(s(s(z)))).", "plus(s(X),Y,s(s(z))).", "plus(X,X,s(s(z)))."]),
    (":-mode app(-,-,+). app(nil,L,L). app(c(H,T),L,c(H,R)) :- app(T,L,R).",
     ["app(X,Y,c(a,c(b,c(c,nil)))).", "app(X,c(b,Y),c(a,c(b,nil))).", "app(X,X,c(a,c(a,nil)))."]),
    (":-mode del(-,+,-). del(H,c(H,T),T). del(X,c(H,T),c(H,R)) :- del(X,T,R).\n"
     ":-mode perm(+,-). perm(nil,nil). perm(L,c(H,P)) :- del(H,L,R), perm(R,P).",
     ["perm(c(1,c(2,c(3,nil))),X).", "del(X,c(a,c(b,nil)),Y).", "perm(c(1,c(1,nil)),X)."]),
    (":-mode app(+,+,-). app(nil,L,L). app(c(H,T),L,c(H,R)) :- app(T,L,R).\n"
     ":-mode rev(+,-). rev(nil,nil). rev(c(H,T),R) :- rev(T,S), app(S,c(H,nil),R).",
     ["rev(c(a,c(b,c(c,nil))),X).", "rev(c(f(z),nil),X), rev(X,Y).", "rev(c(a,b),X)."]),
    (":-mode e(-,-). e(a,b). e(b,c). e(a,c). e(c,d).\n"
     ":-mode t(-,-). t(X,Y) :- e(X,Y). t(X,Z) :- e(X,Y), t(Y,Z).",
     ["t(a,X).", "t(X,Y).", "t(X,d).", "t(X,X).", "e(X,Y), t(Y,Z)."]),
    (":-mode e(-,-). e(a,b). e(b,a).\n:-mode t(-,-). t(X,Y) :- e(X,Y). t(X,Z) :- e(X,Y), t(Y,Z).",
     ["t(a,X).", "t(X,c)."]),
    (":-mode d(-,-). d(r,g). d(r,b). d(g,r). d(g,b). d(b,r). d(b,g).",
     ["d(A,B), d(B,C), d(A,C).", "d(A,B), d(C,B), d(A,C), d(D,A)."]),
    (":-mode ev(+). :-mode od(+). ev(z). ev(s(N)) :- od(N). od(s(N)) :- ev(N).",
     ["ev(s(s(z))).", "od(s(s(z))).", "X = s(s(s(z))), od(X)."]),
    (":-mode next(+,-). next(off,rinse). next(rinse,end). next(on,steady). next(steady,low).\n"
     "next(low,off). :-mode ends(+,-). ends(S,T) :- next(S,T). ends(S,T) :- next(S,U), ends(U,T).",
     ["ends(on,X).", "ends(off,X), X = end.", "next(low,X), ends(X,Y).", "ends(end,X)."]),
    (":-mode l. l :- l.", ["l."]),
    (":-mode l. l. l :- l.", ["l."]),
    (":-mode l. l :- l. l.", ["l."]),
    (":-mode l(*). l(X) :- l(f(X)). l(a).", ["l(X)."]),
    (":-mode l(*). l(f(X)) :- l(X).", ["l(X).", "l(f(f(a)))."]),
    (":-mode b(-). b(0). b(1).", ["b(A),b(B),b(C),b(D),b(E),b(F).", "b(A),b(B),b(A)."]),
]

# Brackets: bindings of the left side undone for the right one, answers of one side and of both, brackets in brackets, in goals and in clauses.
BRACKETED = [
    ("", ["(true;true).", "(X=a;X=b).", "((X=a;X=b);X=c).", "(X=a;X=b),(Y=c;Y=X).", "(X=a;Y=b), Z = f(X,Y).",
          "X=f(Y,Z),(Y=a,Z=b,fail;(Y=c;Z=d)).", "(X=Y,Y=Z,Z=a,X=b;X=c).", "(X=f(X);X=g(Y),(Y=a;Y=b)).",
          "((fail;X=a),true;fail),(true;X=b).", "(true,(X=_;fail),true;X=b),Y=g(X,_)."]),
    (":-mode p(-). p(a). p(b).", ["(p(X);X=c).", "(p(X),X=b;p(Y),X=f(Y)).", "p(X),(X=a;X=b)."]),
    (":-mode p(*,*). p(X,Y) :- (X=a,Y=b;Y=X). p(X,f(X)) :- (X=Y;true),(Y=c;X=d).", ["p(X,Y).", "p(X,f(Z)).", "(p(X,a);p(b,X))."]),
    (":-mode q. q :- (fail;(true;fail)). q.", ["q,q."]),
]
LARGER_BRACKETED = [
    (":-mode next(+,-). next(on,low). next(low,off). next(off,rinse). next(rinse,on).\n:-mode ends(+,-). ends(S,T) :- next(S,U), (T = U; ends(U,T)).",
     ["ends(on,X).", "ends(off,X), X = low.", "(ends(end,X);next(on,X))."]),
    (":-mode mem(-,+). mem(X,c(H,T)) :- (X = H; mem(X,T)).\n:-mode add(+,+,-). add(M,N,P) :- (M = z, P = N; M = s(A), add(A,N,B), P = s(B)).",
     ["mem(X,c(a,c(b,c(c,nil)))).", "mem(X,c(s(z),c(z,nil))), add(X,X,Y).", "add(s(s(z)),s(z),X)."]),
    (":-mode b(-). b(X) :- (X = 0; X = 1).", ["b(A),b(B),b(C),b(D).", "b(A),b(B),(A = B; A = 0, B = 1).", "b(A),b(B),b(C),b(D),b(E),b(F),fail."]),
    (":-mode l. l :- (l; true).", ["l.", "(fail;l).", "(true;l),l."]),
    (":-mode l. l :- (true; l).", ["l.", "l, fail.", "l, l."]),
    (":-mode l. l :- (true; true), l.", ["l.", "(l;true)."]),
    (":-mode l. l. l :- (fail; l), (true; fail).", ["l."]),
]


def nested(depth, core):
    return "s(" * depth + core + ")" * depth


def tower(name, height):
    """A clause whose argument is z under so many s, in steps of sixteen."""
    links, last = [], "z"
    while height:
        depth = min(height, 16)
        links.append("V%d = %s" % (len(links), nested(depth, last)))
        last, height = "V%d" % (len(links) - 1), height - depth
    return ":-mode %s(-). %s(%s) :- %s.\n" % (name, name, last, ", ".join(links))


def around(number, least, most):
    return [n for n in (number - 1, number, number + 1) if least <= n <= most]


def edges(add, sheet, goal, every_step=False, stored=False):
    """The whole run, then each end of it one short, just reached and one beyond."""
    whole = add(sheet, goal, stored=stored)
    if isinstance(whole, engine.Refusal):
        return
    steps = range(1, min(whole.steps, 40) + 2) if every_step else [1]
    for allowance in [*steps, *around(whole.steps, 1, ALLOWANCE)]:
        add(sheet, goal, allowance=allowance, stored=stored)
    for wanted in [1, *around(whole.answers, 1, 64)]:
        add(sheet, goal, wanted=wanted, stored=stored)
        add(sheet, goal, wanted=wanted, allowance=max(whole.steps, 1), stored=stored)
    lines = whole.text.splitlines(keepends=True)
    for count in sorted({0, 1, len(lines)}):
        size = sum(map(len, lines[:count]))
        for room in around(size, 0, ROOM):
            add(sheet, goal, room=room, stored=stored)
            add(sheet, goal, room=room, wanted=max(count, 1), stored=stored)


def raised(add, *texts, **settings):
    """The allowance raised from 1, step by step, to where the run ends otherwise than by `steps`, and then to some larger ones."""
    allowance = 1
    while add(*texts, allowance=allowance, **settings).kind == "steps":
        allowance += 1
    for larger in (allowance + 1, allowance + 2, 2 * allowance, ALLOWANCE):
        add(*texts, allowance=larger, **settings)


def worked_examples(add):
    for sheet, goal, _ in examples.RUNS:
        edges(add, sheet, goal)
    for allowance, wanted, room, sheet, goal, _ in examples.SETTINGS:
        add(sheet, goal, allowance, wanted, room)
    for sheet, _ in examples.CHECKS:
        if len(sheet) < 500:
            add(sheet, "true.")
            add(sheet, "")
    for goal, _ in examples.GOALS:
        add(":-mode p. p.", goal)
    for sheet, goal, _ in examples.STORED:
        edges(add, sheet, goal, stored=True)
        add(sheet, goal)


def stored_sheets(add):
    """Declared predicates without a clause: with the mark they are called and fail, without it the sheet is refused; the mark with every other
    refusal, and with a sheet that needs none."""
    for sheet, goals in (
        (":-mode p.", ["p.", "true, p.", "X = a, p, X = b.", "p, p.", "X = f(X), p."]),
        (":-mode p(*). :-mode q(*). q(a). q(X) :- p(X). q(b).", ["q(X).", "q(X), p(X).", "p(X).", "q(X), q(Y)."]),
        (":-mode p(-). :-mode q(+,-). p(X) :- q(a,X). p(b).", ["p(X).", "p(b).", "q(a,X), p(X)."]),
        (":-mode l. :-mode k. l :- l. l :- k.", ["l.", "k, l."]),
        (":-mode seen(*,*,*). :-mode p(*). p(X) :- seen(X,Y,Z). p(a).", ["p(X).", "seen(X,Y,Z).", "p(X), p(Y)."]),
        (":-mode seen(-,-,-). seen(a,b,c). :-mode p.", ["seen(X,Y,Z).", "p."]),
    ):
        for goal in goals:
            edges(add, sheet, goal, every_step=True, stored=True)
            add(sheet, goal)
    for sheet in (
        ":-mode p. :-mode p.", ":-mode p. :-mode q. q :- r.", ":-mode p. :-mode q(-). q(X).", ":-mode p. :-mode q(+). q(X) :- q(Y).",
        ":-mode p. :-mode q(+,-). q(X,X).", ":-mode p. !", ":-mode p. p(", ":-mode seen(+,+).", ":-mode seen(+,+,+).", ":-mode p. p.", "", "p.",
    ):
        for goal in ("true.", "p.", "q.", "q(X).", "p(", "X = a, q(X,Y)."):
            for stored in (False, True):
                add(sheet, goal, stored=stored)
        add(sheet, "p.", allowance=0, stored=True)
    for count in (1, 2, 3, 63, 64):
        modes = "".join(":-mode p%d." % n for n in range(count))
        for stored in (False, True):
            add(modes, "p0, true.", stored=stored)
            add(modes + "p0.", "p0, p%d." % (count - 1), stored=stored)
            add(modes + "".join("p%d." % n for n in range(count - 1)), "p0, p%d." % (count - 1), stored=stored)


def settings(add):
    """Number 1 comes before the sheet, the sheet before the goal."""
    for allowance in (0, 1, 2, 65_535, 65_536, 65_537, 100_000, 2**24 - 1):
        for wanted in (0, 1, 63, 64, 65, 65_535):
            add(":-mode p(-). p(a). p(b).", "p(X).", allowance, wanted, 100)
    for sheet, goal in (("p(", "q("), ("p.", "true."), ("", "p("), ("", "p."), ("", "")):
        for allowance, wanted in ((0, 1), (65_537, 1), (1, 0), (1, 65), (1, 1), (65_536, 64)):
            add(sheet, goal, allowance, wanted, 0)


def steps_and_ends(add):
    for sheet, goals in SMALL + BRACKETED:
        for goal in goals:
            edges(add, sheet, goal, every_step=True)
    for sheet, goals in LARGER + LARGER_BRACKETED:
        for goal in goals:
            edges(add, sheet, goal)


def every_allowance(add):
    """REQUESTS (xiii): longer runs at every allowance, and short rooms and few wanted answers; trace_cases has more of them."""
    for sheet, goal, settings in (
        (":-mode n(-). n(z). n(s(X)) :- n(X).", "n(X).", {}),
        (":-mode n(-). n(z). n(s(X)) :- n(X).", "n(X).", {"room": 99}),
        (":-mode l. l. l :- l.", "l.", {}),
        (":-mode b(-). b(0). b(1).", "b(A),b(B),b(A).", {}),
        (":-mode p(-). p(a). p(b). p(c).", "p(X), p(Y).", {"wanted": 5}),
        (":-mode p(*). p(a). p(f(f(f(b)))). p(c).", "p(X).", {"room": 20}),
        (":-mode p(*). p(a). p(f(f(f(b)))). p(c).", "p(X), p(Y).", {"room": 60}),
        (":-mode plus(-,-,+). plus(z,N,N). plus(s(M),N,s(P)) :- plus(M,N,P).", "plus(X,Y,s(s(s(z)))).", {}),
    ):
        raised(add, sheet, goal, **settings)


def all_brackets(core, side):
    """As many brackets as a body can have, the core on their left and the side on each right."""
    return "(" * 15 + core + (";" + side + ")") * 15


def full_piles(add):
    """As many alternatives as there can be: 16 for the goal and for each of 255 copies.  A loop gets there and is deep; p, q and t count the 255
    copies (p 1, q 16 times 15, t 14), so that the pile is emptied again."""
    for side in ("true", "fail"):
        loop = ":-mode p. p:-%s." % all_brackets("p", side)
        for goal in (all_brackets("p", side), "p"):
            for allowance in (15, 16, 4_079, 4_080, 4_094, 4_095, 4_096):
                add(loop, goal + ".", allowance=allowance)
    for side, last in product(("true", "fail"), ("true", "fail", "X=a")):
        rules = (
            ("p(%s,A,%s,B,%s,C)" % tuple(nested(depth, "z") for depth in (15, 14, 13)), "q(A,B,A,C)"),
            ("q(s(N),M,K,L)", "q(N,M,K,L)"), ("q(z,s(M),K,L)", "q(K,M,K,L)"), ("q(z,z,K,L)", "t(L)"), ("t(s(N))", "t(N)"),
        )
        sheet = ":-mode p(*,*,*,*,*,*).:-mode q(*,*,*,*).:-mode t(*).\n"
        sheet += "".join("%s:-%s.\n" % (head, all_brackets(call, "fail")) for head, call in rules)
        sheet += "t(z):-%s.\n" % all_brackets(last, side)
        add(sheet, all_brackets("p(X,X,Y,Y,Z,Z)", "fail") + ".", wanted=64)
        add(sheet, all_brackets("p(X,X,Y,Y,Z,Z)", side) + ".", wanted=17)


def many_copies(add):
    """Brackets before, behind and around the call in 238, 255 and 256 copies: l counts (k + 1) times (m + 1)."""
    bodies = [
        "(true;fail),CALL", "CALL,(true;fail)", "(CALL;fail)", "(fail;CALL)", "(CALL;true)", "(true;CALL)", "((CALL;fail);fail)",
        "(true;fail),(CALL;fail),(true;fail)", "(X=a,X=b;X=c),CALL,(X=c;fail)", "(X=K,fail;CALL)", "(CALL,fail;true)", "CALL,(fail;true)",
        "(X=f(X);CALL),(X=a;X=b)", all_brackets("CALL", "fail"), "CALL," + ",".join(["(true;fail)"] * 7),
    ]
    for number, body in enumerate(bodies):
        for sizes in ((13, 16), (14, 16), (15, 15)) if number < 4 else ((14, 16),):
            last = ("true", "(true;true)", "(fail;true)", "(X=K;fail)")[number % 4]
            sheet = ":-mode l(*,*,*). l(z,z,K):-%s. l(s(N),M,K):-%s. l(z,s(M),K):-%s." % (
                last, body.replace("CALL", "l(N,M,K)"), body.replace("CALL", "l(K,M,K)"))
            goal = "K=%s,M=%s," % tuple(nested(depth, "z") for depth in sizes)
            add(sheet, goal + "l(K,M,K).")
            add(sheet, goal + "l(K,M,K),fail.")
            add(sheet, goal + "l(K,M,K).", wanted=1)
            add(sheet, goal + "(true;l(K,M,K)),(true;fail).", wanted=2)


def undone_sides(add):
    """64 variables bound in a left side and undone for the right one, by equations and by calls, in the goal and in copies of a clause."""
    names = ["V%d" % n for n in range(64)]
    eights = ["q(%s)" % ",".join(names[n : n + 8]) for n in range(0, 64, 8)]
    modes = ":-mode q(%s). q(a,b,c,d,e,f,g,h). q(A,A,B,B,C,C,D,D)." % ",".join("*" * 8)
    for left, right in ((",".join(eights) + ",fail", "V0=V63"), (",".join(eights[:4]), ",".join(eights[4:])), ("V0=V63,V63=V32", ",".join(eights))):
        add(modes, "(%s;%s)." % (left, right), wanted=2)
        add(modes, "V63=f(V0),(%s;%s),V1=V62." % (left, right), allowance=700)
        add(modes + ":-mode l. l :- (%s;%s), l. l." % (left, right), "l.", allowance=9_000)


def numerals(add):
    """Numerals of facts, heads, goals and equations that meet, and how they are printed."""
    for left, right in product(examples.NUMERALS, repeat=2):
        add(":-mode p(*). p(%s)." % left, "p(%s)." % right)
    for left, right in product(examples.NUMERALS, ["0", "7", "a7"]):
        add(":-mode p(+,-). p(f(%s,X),X) :- %s = X." % (left, right), "p(f(%s,%s),Y)." % (right, left))
        add("", "X = f(%s,%s), X = f(Y,Y)." % (left, right))
    facts = " ".join("p(%s)." % spelt for spelt in examples.NUMERALS if len(spelt) < 32)
    for goal in ("p(X).", "p(X), p(X).", *("p(%s)." % spelt for spelt in examples.NUMERALS)):
        add(":-mode p(*). " + facts, goal, wanted=64)


def path_limit(add):
    """What stands first at path 253 to 256: only trying a clause is refused there."""
    tails = ["", " :- true", " :- fail", " :- a = a", " :- a = b", " :- X = f(X)", " :- none",
             " :- one", " :- fact(X)", " :- fact(c)", " :- true, none", " :- true, one",
             " :- one, none"]
    modes = ":-mode d(+). :-mode none. :-mode one. :-mode fact(-). one. fact(a). fact(b).\n"
    for height in (251, 252, 253, 254):
        for tail in tails if height in (252, 253) else tails[:2]:
            sheet = tower("c", height - 16) + modes + "d(z)%s. d(s(N)) :- d(N)." % tail
            add(sheet, "c(_V), X = %s, d(X)." % nested(15, "s(_V)"), stored=True)
    for sheet, goals in (
        (":-mode l. l :- l.", ["true, l.", "l, fail."]),
        (":-mode l. l :- true, l.", ["l.", "X = a, l."]),
        (":-mode l. l :- l, l. l.", ["l.", "l, l."]),
        (":-mode l. :-mode k. l :- k, l. k.", ["l.", "k, l."]),
        (":-mode l(*). l(a) :- fail. l(X) :- l(X).", ["l(_).", "l(b).", "l(X), l(Y)."]),
        (":-mode l(*). l(a). l(f(X)) :- l(X).", ["l(_), fail.", "l(X), X = b."]),
    ):
        for goal in goals:
            edges(add, sheet, goal)


def large_terms(add):
    links = ["V%d = %s" % (n, nested(16, "V%d" % (n + 1))) for n in range(15)]
    down = "d(z,z). d(s(N),V0) :- %s, d(N,V15).\n" % ", ".join(links)
    up = "d(z,z). d(s(N),V0) :- d(N,V15), %s.\n" % ", ".join(reversed(links))
    ends = ":-mode t. t :- c(N), d(N,X). :-mode u. u :- c(N), d(N,X), d(N,Y), X = Y.\n"
    for height, mark, rule in ((240, "*", down), (120, "*", down), (10, "-", up)):
        sheet = tower("c", height) + ":-mode d(+,%s).\n" % mark + rule + ends
        for goal in ("t.", "u.", "c(_N), d(_N,X).", "c(_N), d(_N,X), Y = f(X), X = Y."):
            add(sheet, goal)
    for height in (5, 10, 15):
        links = ["V%d = f(V%d,V%d)" % (n + 1, n, n) for n in range(height)]
        sheet = ":-mode t(*,*). t(V0,V%d) :- %s." % (height, ", ".join(links))
        goals = ["t(a,X).", "t(A,X).", "t(A,X), t(B,X).", "t(A,X), t(B,Y), X = Y.",
                 "t(a,X), t(b,X).", "t(A,A).", "t(A,X), t(X,A)."]
        for goal in goals if height <= 10 else goals[:-1]:  # at most 2 ** 20 leaves
            add(sheet, goal)
            add(sheet, goal, room=100)
    # 57,600 levels printed; the line one byte too long
    sheet = tower("c", 240) + ":-mode d(+,*). :-mode w(*). w(X) :- c(N), d(N,X).\n" + down
    for room in (len("X = z\n") + 3 * 57_600, len("X = z\n") + 3 * 57_600 - 1):
        add(sheet, "w(X).", room=room)
    # 8 ** 15 leaves
    links = ["V%d = f(%s)" % (n + 1, ",".join(["V%d" % n] * 8)) for n in range(15)]
    sheet = ":-mode t(*,*). t(V0,V15) :- %s.\n" % ", ".join(links)
    for goal in ("t(a,_).", "t(A,X), A = X.", "t(A,_X), t(B,_Y), _X = _Y.", "t(A,_X), t(B,_X), A = a, B = b.",
                 "t(A,X), t(X,A).", "t(A,X)."):
        add(sheet, goal)


def crowded_sheet():
    """Two layered terms, made differently: nearly every node of a layer of the one meets every node of the other's layer.
    Around them a term doubles at each level."""
    wide = 15
    lower = ["X%d" % n for n in range(wide)]
    upper = ["Y%d" % n for n in range(wide)]
    packed = "t(t(%s),t(%s))"

    def pack(terms):
        return packed % (",".join(terms[:8]), ",".join(terms[8:]))

    def layer(name, term):
        equations = ",".join("%s=%s" % (upper[n], term(n)) for n in range(wide))
        return ":-mode %s(+,-). %s(%s,%s) :- %s.\n" % (name, name, pack(lower), pack(upper), equations)

    def met(n, places, spelt):
        return "g(%s)" % ",".join(spelt % lower[(n + place) % wide] for place in places)

    return (
        layer("inner", lambda n: met(n, range(8), "h(%s)"))
        + layer("h", lambda n: "h(%s)" % lower[n])
        + layer("outer", lambda n: met(n, [place * place for place in range(8)], "%s"))
        + ":-mode one(+,+,-). one(z,T,T). one(s(N),T,U) :- inner(T,V), one(N,V,U).\n"
        + ":-mode two(+,+,-). two(z,T,T). two(s(N),T,U) :- h(T,V), outer(V,W), two(N,W,U).\n"
        + ":-mode top(+,-). top(t(t(A,B,C,D,E,F,G,H),T),A).\n"
        + ":-mode dbl(+,+,+,-). dbl(z,F,G,e). dbl(s(N),F,G,f(U,F,G,U)) :- dbl(N,F,G,U).\n"
        + ":-mode all(+,-). all(A,%s).\n" % pack(["A"] * wide)
        + ":-mode add(+,+,-). add(z,N,N). add(s(M),N,s(P)) :- add(M,N,P).\n"
        + ":-mode go(+,+,+,+). go(L,D,X,Y) :- all(X,R), all(Y,S), one(L,R,A), two(L,R,B), one(L,S,C), two(L,S,E),"
        + " top(A,F), top(B,G), top(C,H), top(E,I), dbl(D,F,H,P), dbl(D,G,I,Q), P = Q.\n"
    )


def crowds(add):
    """Unification in which more pairs of terms meet than any table of pairs could hold."""
    sheet = crowded_sheet()
    for levels, doublings in ((2, 3), (9, 12), (14, 28)):
        low = min(doublings, 14)
        sides = "s(" * low + "z" + ")" * low, "s(" * (doublings - low) + "z" + ")" * (doublings - low)
        level = "s(" * levels + "z" + ")" * levels
        add(sheet, "add(%s,%s,D), go(%s,D,a,b)." % (*sides, level))


def eights(terms):
    """The terms in one, at most eight in a bracket."""
    while len(terms) > 1:
        groups = [terms[n:n + 8] for n in range(0, len(terms), 8)]
        terms = ["t(%s)" % ",".join(group) if len(group) > 1 else group[0] for group in groups]
    return terms[0]


def filling_sheet(chains, depth, small):
    """Lists of chains, new in each copy of a clause, and lists of one chain made of bound variables: each node of each chain in each copy
    meets another term, and with it a small term that is soon found equal. Around the lists a term doubles at each level."""
    chain = "f(" * depth + "Q" + ",Q)" * depth
    links = ["V0=Q"] + ["V%d=f(V%d,Q)" % (n + 1, n) for n in range(depth)]
    return (
        ":-mode each(+,+,-). each(z,A,e). each(s(N),A,c(%s,L)) :- %s, each(N,A,L).\n" % (eights([chain] * chains), small)
        + ":-mode one(+,-). one(A,%s) :- %s, %s.\n" % (eights(["V%d" % depth] * chains), small, ", ".join(links))
        + ":-mode all(+,+,-). all(z,B,e). all(s(N),B,c(B,L)) :- all(N,B,L).\n"
        + ":-mode dbl(+,+,+,-). dbl(z,F,G,e). dbl(s(N),F,G,f(U,F,G,U)) :- dbl(N,F,G,U).\n"
        + ":-mode add(+,+,-). add(z,N,N). add(s(M),N,s(P)) :- add(M,N,P).\n"
        + ":-mode go(+,+). go(L,D) :- A = a, B = b, each(L,A,F), each(L,B,G), one(A,X), one(B,Y), all(L,X,H), all(L,Y,I),"
        + " dbl(D,F,G,P), dbl(D,H,I,Q), P = Q.\n"
    )


def filled(add):
    """Unification in which as many different terms meet as a run can have, in a short sheet and in one near the limit."""
    low, high = "R=m(A,A,A,A,A,A,A,A), Q=k(R,R)", "R=m(A,A,A,A,A,A,A,A), Q=k(R,R,R)"
    layered = "U=n(A), R=m(U,U,U,U,U,U), Q=k(R,R,R,R,R,R,R,R)"
    for chains, depth, small in ((22, 10, low), (22, 10, high), (252, 11, high), (1_024, 1, low), (1_024, 1, layered)):
        sheet = filling_sheet(chains, depth, small)
        for copies, doublings in ((2, 3), (42, 12)):
            first, second = min(copies, 14), min(max(copies - 14, 0), 14)
            parts = [nested(part, "z") for part in (first, second, copies - first - second, doublings)]
            add(sheet, "add(%s,%s,_K), add(%s,_K,_L), go(_L,%s)." % tuple(parts))


def slow_steps(add):
    """One step that is made to take long, of each kind that has small sheets; of some kinds as large as a sheet can have it, too."""
    for name, kind in adversary.KINDS.items():
        small = adversary.texts(name, 2)
        if len(small[0]) < SMALL_SHEET:
            add(*small)
        if name in LARGE_KINDS:
            add(*adversary.texts(name, kind.large))


def mixed_pairs(add, rng):
    """Variables that are met only beside compound terms, with and without cycles; half of the runs have an answer."""
    made = 0
    while made < 120:
        sheet, goal = random_sheets.mixed_pairs(rng)
        answers = engine.run(sheet.encode(), goal.encode(), ALLOWANCE, WANTED, ROOM).answers
        if answers or rng.random() < 0.3:
            made += 1
            add(sheet, goal)


def rooms(add):
    """A line that does not fit ends the run, though later ones would."""
    sheet = ":-mode p(*). p(a). p(f(f(f(b)))). p(c). p(X). p(d)."
    for room in range(45):
        add(sheet, "p(X).", room=room)
        add(sheet, "p(X), p(Y).", room=2 * room, wanted=3)
        add(sheet, "p(f(_)).", room=room, allowance=12)


def long_runs(add):
    bits = ":-mode b(-). b(0). b(1)."
    names = "ABCDEFGHIJKLMNO"
    for count in (6, 10, 14, 15):
        goal = ", ".join("b(%s)" % name for name in names[:count])
        add(bits, goal + ", fail.")
        for wanted in (16, 63, 64):
            add(bits, goal + ".", wanted=wanted)
    add(":-mode n(-). n(z). n(s(X)) :- n(X).", "n(X), n(Y), X = s(Y), fail.")
    add(":-mode n(-). n(z). n(s(X)) :- n(X).", "n(X).", wanted=64)
    add(":-mode l. l :- fail. l :- l, l. l.", "l, l.")


def sixty_four(add):
    """An answer line with 64 variables; copies of a clause with 64 variables, bound and undone, 254 and 255 of them and one too many."""
    names = ["V%d" % n for n in range(64)]
    eights = ["q(%s)" % ",".join(names[n : n + 8]) for n in range(0, 64, 8)]
    fact = ":-mode q(%s). q(%s)." % (",".join("*" * 8), ",".join("abcdefgh"))
    loose = ":-mode q(%s). q(A,B,C,D,E,F,G,H)." % ",".join("*" * 8)
    for sheet in (fact, loose):
        edges(add, sheet, ", ".join(eights) + ".")
        add(sheet, ", ".join(eights) + ", V63 = V0, V32 = V31.")
    body = ", ".join(eights)
    deep = ":-mode q(%s). q(A,A,A,A,A,A,A,A). :-mode l. l :- %s, V0 = V63, l. l." % (",".join("*" * 8), body)
    add(deep, "l.")
    add(deep, "l.", wanted=1)
    undone = ":-mode q(%s). q(a,A,A,A,A,A,A,A). q(A,A,A,A,A,A,A,b). :-mode l(*). l(z). l(s(N)) :- %s, l(N)." % (",".join("*" * 8), body)
    for count in (1, 3):
        add(undone, "l(%s)." % nested(count, "z"), wanted=64)
        add(undone, "l(%s), fail." % nested(count, "z"), allowance=60_000)
    blanks = "f(%s)" % ",".join("_" * 8)
    body = ",".join(["%s=%s" % (blanks, blanks)] * 4)
    chain = "".join(":-mode c%d.c%d:-%s%s." % (n, n, body, ",c%d" % (n + 1) if n < 63 else "") for n in range(64))
    for last in (2, 1, 0):
        goal = "c0,c0,c0,c%d" % last
        add(chain, goal + ".")
        add(chain, goal + ",fail.")


def by_chance(add, rng):
    """Accepted sheets and goals, by turns with the mark and with clauses for all; runs with several answers are kept the most."""
    made = 0
    while made < 500:
        sheet, goal = random_sheets.runnable(rng)
        if len(sheet) > 300:
            continue
        sheet, stored = sheet.encode(), made % 2 == 0
        if not stored:
            sheet = written.completed(sheet)
        whole = engine.run(sheet, goal.encode(), 3_000, WANTED, ROOM, stored)
        kept = {0: 0.15, 1: 0.3}.get(whole.answers, 0.3 if whole.kind == "wanted" else 1)
        if rng.random() < kept:
            made += 1
            add(sheet, goal, allowance=3_000, stored=stored)
            add(sheet, goal, allowance=rng.randint(1, whole.steps + 1),
                wanted=rng.randint(1, 8), room=rng.randint(0, len(whole.text) + 8), stored=stored)


def single_ends(add, rng):
    """Goals with one line, over sheets that get a yes by REQUESTS (xii): to the end, and up to the line and one step less."""
    made = 0
    for _, sheet, goal in determinacy_cases.single_runs(rng):
        whole = engine.run(sheet, goal, ALLOWANCE, WANTED, ROOM)
        if whole.answers == 1 and whole.steps > 9 and len(sheet) < 130:
            line = engine.run(sheet, goal, ALLOWANCE, 1, ROOM).steps
            for allowance in (ALLOWANCE, line, line - 1):
                add(sheet, goal, allowance=allowance)
            made += 1
        if made == 14:
            return


def make(add, rng):
    worked_examples(add)
    stored_sheets(add)
    settings(add)
    steps_and_ends(add)
    every_allowance(add)
    numerals(add)
    path_limit(add)
    full_piles(add)
    many_copies(add)
    undone_sides(add)
    large_terms(add)
    crowds(add)
    filled(add)
    slow_steps(add)
    rooms(add)
    long_runs(add)
    sixty_four(add)
    by_chance(add, rng)
    single_ends(add, random.Random(SEED + 1))
    mixed_pairs(add, random.Random(SEED + 2))
