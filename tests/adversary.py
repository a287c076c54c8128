"""Sheets and goals in which one step is made to take long, and the runner's time on them, held to bounds.

    tests/adversary.py [--swipl] [--whole] [KIND..]   times of crates/runner/out/runner on the sheets of some kinds, or of all; status 1 where a bound is passed
    tests/adversary.py KIND N FOLDER [CHOICES]        writes the files `sheet` and `goal` there; the long step is taken 2^CHOICES times, CHOICES at most 13

RUNNER names another runner. Each kind has two sizes: at the larger one a sheet has about as many bytes, and a path as many copies, as it can have.
With --swipl SWI-Prolog, under the occurs check, runs each larger sheet too, for at most 20 seconds; a step may then take twice its time, up to a second.
With --whole it is told how long a run would be that takes such a step 65,536 times, from one that takes it some times: a run can nearly do that, with clauses
p(X,X,a) of one predicate, called as p(L,R,b). All seconds are of the processor, the start of the program included; the bounds are meant for a quiet one.
"""

import argparse
import os
import random
import resource
import shutil
import subprocess
import sys
import tempfile
from typing import Callable, NamedTuple

ARGUMENTS = 8
BRACKETS = 16
COPIES = 240  # of the 255 on a path, those that a kind's largest sheet has
LINKS = 48  # the variables of a chain in one copy

# Bounds, in seconds.
STEP = 0.1  # a run with one long step; or twice SWI-Prolog's time, where that is longer
LONGEST = 1.0  # the same, whatever SWI-Prolog takes
WHOLE = 300  # a run of 65,536 such steps
STEPS = 65_536

LEAST = 0.002  # seconds; a run that takes less is told by its start
ROUNDS = 3
GIVEN_UP = 60  # seconds after which a run is ended
SWIPL_GIVEN_UP = 20


def numeral(name, n):
    """Equations that make name the number n in successors, each within the brackets there may be."""
    parts, variable = [], name
    while n > BRACKETS:
        after = name + str(len(parts))
        parts.append(variable + " = " + "s(" * BRACKETS + after + ")" * BRACKETS)
        variable, n = after, n - BRACKETS
    parts.append(variable + " = " + "s(" * n + "z" + ")" * n)
    return parts


def term(leaves):
    """One term over all the leaves, at most eight to a bracket."""
    while len(leaves) > 1:
        leaves = ["f(" + ",".join(leaves[i : i + ARGUMENTS]) + ")" for i in range(0, len(leaves), ARGUMENTS)]
    return leaves[0]


def names(letter, n):
    return [letter + str(i) for i in range(1, n + 1)]


def over_one_term(n):
    """Many bindings over one large term: 24 n variables are bound, in one step, to a term in which 24 n cells are bound to one clause term."""
    held = names("A", 24)
    clause = term(["k"] * (40 * n) + ["X"])
    sheet = [
        ":- mode big(*,*,*). :- mode free(*,*). :- mode same(*,*,*). :- mode large(*).",
        "large(" + clause + ").",
        "big(z,o,L).",
        "big(s(N),f(R," + term(held) + "),L) :- " + term(held) + " = " + term(["L"] * 24) + ", big(N,R,L).",
        "free(z,o).",
        "free(s(N),f(R," + term(held) + ")) :- free(N,R).",
        "same(z,o,G).",
        "same(s(N),f(R," + term(["G"] * 24) + "),G) :- same(N,R,G).",
    ]
    return sheet, numeral("N", n) + ["large(L)", "big(N,G,L)", "free(N,V)", "same(N,W,G)", "V = W"]


def big(n):
    """Clauses that make a term of copies of one large clause term: no two of its cells are bound to the same."""
    return ["big(z,o).", "big(s(N),f(R," + term(["X"] * (40 * n)) + ")) :- big(N,R)."]


def over_many_terms(n):
    """The same, where the term has n copies of one large clause term."""
    held = names("A", 48)
    sheet = [
        ":- mode big(*,*). :- mode free(*,*). :- mode same(*,*,*).",
        *big(n),
        "free(z,o).",
        "free(s(N),f(R," + term(held) + ")) :- free(N,R).",
        "same(z,o,G).",
        "same(s(N),f(R," + term(["G"] * 48) + "),G) :- same(N,R,G).",
    ]
    return sheet, numeral("N", n) + ["big(N,G)", "free(N,V)", "same(N,W,G)", "V = W"]


def alternation(n):
    """Bindings that have to do with each other: in one step 14 n times Y = g(X), W = h(V), X = k(V,G), with that large term G."""
    left, right = [], []
    for i in range(1, 15):
        left += [f"Y{i}", f"W{i}", f"X{i}"]
        right += [f"g(X{i})", f"h(V{i})", f"k(V{i},G)"]
    sheet = [
        ":- mode big(*,*). :- mode two(*,*,*,*).",
        *big(n),
        "two(z,o,o,G).",
        "two(s(N),f(L," + term(left) + "),f(R," + term(right) + "),G) :- two(N,L,R,G).",
    ]
    return sheet, numeral("N", n) + ["big(N,G)", "two(N,L,R,G)", "L = R"]


def leaves(n):
    """A large term with variables that are bound, in one step, in turn with 16 n variables that are bound to the term."""
    left, right = [], []
    for i in range(1, 17):
        left += [f"U{i}", f"W{i}"]
        right += [f"f(V{i})", "k(G)"]
    sheet = [
        ":- mode two(*,*,*,*,*).",
        "two(z,o,o,o,G).",
        "two(s(N),f(T," + term(names("U", 16) + ["X"] * (40 * n)) + "),f(L," + term(left) + "),f(R," + term(right) + "),G) :- two(N,T,L,R,G).",
    ]
    return sheet, numeral("N", n) + ["two(N,G,L,R,G)", "L = R"]


def chained(level, before, copies):
    """A variable at the end of a chain through a third of the copies, in two towers of so many levels that are then unified."""
    links = names("X", LINKS)
    return (
        [
            ":- mode chain(*,*,*,*,*). :- mode tower(*,*,*).",
            "chain(z,E,A,B,N) :- tower(N,A,E), tower(N,B,E).",
            # a variable is bound to one that stands earlier in its clause
            "chain(s(M),X1,A,B,N) :- L = " + term(links) + ", chain(M," + links[-1] + ",A,B,N), "
            + term(links[:0:-1]) + " = " + term(links[-2::-1]) + ".",
            "tower(z,o,Z).",
            "tower(s(N),g(" + level + ",R),Z) :- " + before + "tower(N,R,Z).",
        ],
        numeral("M", copies) + ["chain(M,X,A,B,N)", "A = B"],
    )


def light_pairs(n):
    """Light pairs over long chains: one term has 12 n places of a variable that is bound to a small term over a chain of 47 n links."""
    sheet, body = chained(term(["W"] * (12 * n)), "W = " + term(["Z"] * 24) + ", ", n)
    return sheet, ["N = s(z)"] + body


def chains(n):
    """Chains alone: n / 2 pairs of levels, each with 16 n places of a variable over a chain of 47 n links."""
    sheet, body = chained(term(["Z"] * (16 * n)), "", n)
    return sheet, numeral("N", max(1, n // 2)) + body


def chained_alternation(n):
    """As alternation, with n places of a variable over a chain of 47 n links behind each three bindings."""
    links = names("X", LINKS)
    left, right = [], []
    for i in range(1, 14):
        left += [f"Y{i}", f"W{i}", f"X{i}"] + ["Z"] * n
        right += [f"g(X{i})", f"h(V{i})", f"k(V{i},G)"] + ["E"] * n
    sheet = [
        ":- mode chain(*,*,*,*,*,*). :- mode big(*,*). :- mode two(*,*,*,*,*).",
        "chain(z,E,L,R,N,G) :- two(N,L,R,G,E).",
        "chain(s(M),X1,L,R,N,G) :- K = " + term(links) + ", chain(M," + links[-1] + ",L,R,N,G), " + term(links[:0:-1]) + " = " + term(links[-2::-1]) + ".",
        *big(n),
        "two(z,o,o,G,Z).",
        "two(s(N),f(L," + term(left) + "),f(R," + term(right) + "),G,Z) :- Z = E, two(N,L,R,G,Z).",
    ]
    return sheet, numeral("N", n) + numeral("M", n) + ["big(N,G)", "chain(M,X,L,R,N,G)", "L = R"]


def side_by_side(equations):
    """The equations, eight to a literal."""
    parts = []
    for i in range(0, len(equations), ARGUMENTS):
        some = equations[i : i + ARGUMENTS]
        parts.append("t(" + ",".join(left for left, _ in some) + ") = t(" + ",".join(right for _, right in some) + ")")
    return parts


def nested(openings, end):
    """These openings of brackets around the end."""
    return "".join(openings) + end + ")" * len(openings)


def linked(name, openings, end):
    """Equations, to stand side by side, that make name these openings around the end."""
    depth, equations = BRACKETS - 1, []
    for i in range(0, len(openings), depth):
        after = f"{name}{i // depth + 1}" if i + depth < len(openings) else end
        equations.append((name if i == 0 else f"{name}{i // depth}", nested(openings[i : i + depth], after)))
    return equations


def number(name, n):
    """Literals that make name the number n in successors."""
    return side_by_side(linked(name, ["s("] * n, "z"))


def cycled(parts, n):
    """So many parts, again and again the same."""
    return [parts[i % len(parts)] for i in range(n)]


def parted(variables, leaf, count):
    """Literals that make the first variable a term of so many leaves, and each further one the only argument of the one before it."""
    inner = [(one, f"f({after})") for one, after in zip(variables, variables[1:])]
    return side_by_side([(variables[0], nested(["f("] * (len(variables) - 1), term([leaf] * count))), *inner])


def doubling(n):
    """Terms that double at each of n levels, their variables each beside a compound term: no two variables meet."""
    equations = []
    for i in range(n):
        equations += [(f"X{i}", f"f(g(X{i + 1},X{i + 1}))"), (f"W{i}", f"g(f(W{i + 1}),f(W{i + 1}))")]
    return [], side_by_side(equations) + ["X0 = f(W0)"]


def out_of_step(n):
    """Two cyclic terms that are out of step, with 20 n leaves at each turn."""
    large = term(["k"] * (20 * n))
    equations = [("X", f"f(g(U,{large}))"), ("U", f"f(g(X,{large}))"), ("W", f"g(f(V),{large})"), ("V", f"g(f(W),{large})"), ("X", "f(W)")]
    return [], side_by_side(equations)


def one_by_one(variables):
    """Literals that bind each variable to a small term with a variable of its own."""
    return side_by_side([(variable, f"k(m(Z{variable}))") for variable in variables])


def out_of_step_pairs(n):
    """The same, where 8 n leaves are met before each turn, each a variable beside a compound term."""
    left, right = names("A", 13), names("B", 13)
    first, second = term([f"k({leaf})" for leaf in cycled(left, 8 * n)]), term(cycled(right, 8 * n))
    equations = [("X", f"f(g({first},U))"), ("U", "f(g(Q,X))"), ("W", f"g({second},f(V))"), ("V", "g(Q,f(W))"), ("X", "f(W)")]
    return [], one_by_one(right) + side_by_side(equations)


def endless(n):
    """Two cyclic terms of 20 n constants a turn: each turn walks all of them, once the stack is so high that large terms are no pairs of their own."""
    large = term(["k"] * (20 * n))
    return [], side_by_side([("X", f"h({large},X)"), ("W", f"h({large},W)"), ("X", "W")])


def doubling_mixed(n):
    """Terms that double at each of n levels; between the two halves of a level stand 1,800 places where a variable is beside a compound term."""
    leaves = cycled(list("ABCDEFGHIJKLMOQRSTUVYZ"), 1800)
    sheet = [
        ":- mode x(*,*). :- mode w(*,*,*). :- mode b(*).",
        "x(z,f(o)).",
        f"x(s(N),f(g(X,{term([f'k({leaf})' for leaf in leaves])},X))) :- x(N,X).",
        "w(z,o,P).",
        "w(s(N),g(f(W),P,f(W)),P) :- w(N,W,P).",
        f"b({term(leaves)}) :- " + ", ".join(one_by_one(leaves[:22])) + ".",
    ]
    return sheet, number("N", n) + ["b(P)", "x(N,X)", "w(N,W,P)", "X = f(W)"]


def many_mixed(n):
    """As many pairs of a variable and a compound term as there can be: 1,800 in each of n copies, all of them apart."""
    leaves = cycled(list("ABCDEFGHIJKLMOPQSTUVXY"), 1800)
    sheet = [
        ":- mode p(*,*). :- mode q(*,*).",
        "p(z,o).",
        f"p(s(N),g({term([f'k({leaf})' for leaf in leaves])},R)) :- p(N,R).",
        "q(z,o).",
        f"q(s(N),g({term(leaves)},R)) :- q(N,R), " + ", ".join(one_by_one(leaves[:22])) + ".",
    ]
    return sheet, number("N", n) + ["p(N,V)", "q(N,W)", "V = W"]


def beside(turns):
    """Two terms A and B of so many nodes: A against k(B) takes as many turns, and is remembered only if that is much."""
    many = term(["o"] * turns)
    return [("A", f"k(h({many}))"), ("B", f"h({many})")]


def doubling_light(n):
    """Terms that double at each of n levels; between the two halves of a level stand so many light pairs that a memo is filled."""
    sheet = [
        ":- mode level(*,*,*,*,*,*). :- mode c(*,*,*,*,*).",
        "c(z,A,B,e,e).",
        f"c(s(N),A,B,p(W,L),p(g(V),R)) :- W = g({term(['k(B)'] * 1400)}), V = {term(['A'] * 1400)}, c(N,A,B,L,R).",
        "level(z,M,A,B,q(k(B)),q(A)).",
        "level(s(N),M,A,B,y(g(X),F,g(X)),y(W,G,W)) :- W = g(V), c(M,A,B,F,G), level(N,M,A,B,X,V).",
    ]
    return sheet, side_by_side(beside(27)) + numeral("N", n) + numeral("M", 10) + ["level(N,M,A,B,X,V)", "X = V"]


def whole(leaf, depth, count=110):
    """A binary tree of so many levels, with so many leaves under each branch."""
    return term([leaf] * count) if depth == 0 else f"f({whole(leaf, depth - 1, count)},{whole(leaf, depth - 1, count)})"


def part(i, depth):
    """What `whole` makes, from variable i down so many levels to its variables: those of number i have 2 i and 2 i + 1 under them."""
    return f"V{i}" if depth == 0 else f"f({part(2 * i, depth - 1)},{part(2 * i + 1, depth - 1)})"


def levels_met(copies, left, right):
    """The two lists with two terms, in that many copies, by all levels of `part`, the deepest first."""
    for copy in copies:
        for depth in range(5):
            left, right = f"p({copy},{left})", f"p(g({part(1, depth)}),{right})"
    return left, right


def parts_of(leaf, count):
    """Literals that make V1 such a tree, and the other variables of `part` its branches."""
    return side_by_side([("V1", whole(leaf, 4, count))] + [(f"V{i}", f"f(V{2 * i},V{2 * i + 1})") for i in range(1, 16)])


def deep(n):
    """Two large terms, spelt otherwise, in n copies each: their parts are met by themselves, the deepest first, and each leaf is a light pair."""
    left, right = levels_met(("O", "W"), "L", "R")
    sheet = [
        ":- mode c(*,*,*,*,*,*).",
        "c(z,A,B,e,e,W).",
        f"c(s(N),A,B,{left},{right},O) :- W = g({whole('k(B)', 4)}), " + ", ".join(parts_of("A", 110)) + ", c(N,A,B,L,R,W).",
    ]
    return sheet, side_by_side(beside(26)) + numeral("N", n) + ["c(N,A,B,L,R,V)", "L = R"]


def zigzag(n):
    """Large terms of 1,760 light pairs, of which each meets the one before it and the one behind it, by its parts and as a whole, in n copies."""
    light, plain = term([term(["k(B)"] * 220)] * 8), term([term(["A"] * 220)] * 8)
    these, next_ = "f(" + ",".join(names("V", 8)) + ")", "f(" + ",".join(names("Y", 8)) + ")"
    sheet = [
        ":- mode c(*,*,*,*,*,*).",
        "c(z,A,B,e,e,V).",
        f"c(s(N),A,B,p(W,p(W,p(W,p(W,L)))),p(g({these}),p(g(V),p(g({next_}),p(g(Y),R)))),V) :- "
        + f"W = g({light}), V = {plain}, V = {these}, Y = {next_}, c(N,A,B,L,R,Y).",
    ]
    return sheet, side_by_side(beside(25)) + number("N", n) + ["c(N,A,B,L,R,V)", "L = R"]


def one_class(n):
    """As `deep`, and all terms become equal: n copies are met with light pairs of 8 nodes, as many with 16 and 24, and five times as many with 64."""
    left, right = levels_met(("O", "W"), "L", "R")
    sheet = [
        ":- mode g(*,*,*). :- mode c(*,*,*,*,*,*,*,*).",
        "c(z,A,B,L,R,W,L,R).",
        *(f"g({name},k({weight}),{weight})." for name, weight in zip("abcd", map(node, (8, 16, 24, 64)))),
        f"c(s(N),A,B,{left},{right},O,E,I) :- W = g({whole('k(B)', 4, 80)}), " + ", ".join(parts_of("A", 80)) + ", c(N,A,B,L,R,W,E,I).",
    ]
    body = side_by_side([pair for name, count in zip("STUV", (n, n, n, 5 * n)) for pair in linked(name, ["s("] * count, "z")])
    for i, (name, stage) in enumerate(zip("STUV", "abcd")):
        body += [f"g({stage},A{i},B{i})", f"c({name},A{i},B{i},L{i},R{i},O{i},L{i + 1},R{i + 1})"]
    return sheet, body + ["L0 = R0"]


def node(n):
    """A term of n nodes."""
    if n == 1:
        return "o"
    some = min(n - 1, ARGUMENTS)
    return "i(" + ",".join(node((n - 1 + i) // some) for i in range(some)) + ")"


def raised(n):
    """A memo that is filled raises the weight that a pair must have; what is below it is then met again and again.

    In each copy 1,859 places meet a pair of terms A and B twice. Each weighs so much with them that a memo of 1,796 is filled, and forgets; and the next
    copy's pair weighs twice as much. So it goes on up to the i-th pair, i being 2, 3 and so on up to n, since a memo may be forgotten on the way for other
    reasons; and then four copies meet the i-th pair.
    """
    depth, pairs = 11, "ABCDEFGHIJKMOPQSTUVW"[:n]
    places = [f"f(B,B,Y{i + 1})" if i + 1 < depth else "f(B,B,o)" for i in range(depth)]
    sheet = [
        ":- mode c(*,*,*).",
        "c(z,e,e).",
        f"c(l(g(A,B),N),p({term(['Y0'] * 169)},L),p({term([nested(['f(A,A,'] * depth, 'o')] * 169)},R)) :- "
        + ", ".join(side_by_side([(f"Y{i}", place) for i, place in enumerate(places)])) + ", c(N,L,R).",
    ]
    weights = [("A0", "h(o,o,o)"), ("B0", "h(o,o,o)")]
    for i in range(1, n):
        weights += [(f"{side}{i}", f"h({side}{i - 1},{side}{i - 1})") for side in "AB"]
    order = [pair for i in range(2, n + 1) for pair in pairs[:i] + pairs[i - 1] * 4]
    terms = [(pair, f"g(A{i},B{i})") for i, pair in enumerate(pairs)] + linked("N", [f"l({pair}," for pair in order[:COPIES]], "z")
    return sheet, side_by_side(weights + terms) + ["c(N,L,R)", "L = R"]


def beside_next(leaves, copies):
    """Clauses of c(N,A,B,L): L is a list of n copies of a term with so many leaves, A in one copy and B in the next. Against the list without its first
    term each copy meets the next."""
    sheet = [":- mode c(*,*,*,*).", "c(z,A,B,e).", f"c(s(N),A,B,p({term(['A'] * leaves)},L)) :- c(N,B,A,L)."]
    return sheet, number("N", copies)


def small_terms(n):
    """Small terms whose variables stand at the end of a chain of 30 links, and met 24 n times in each of n copies."""
    chain = names("X", 33)
    sheet, body = beside_next(24 * n, n)
    ends = [",".join(["X33"] * 6), ",".join(["X32", "X31"] * 3)]
    sheet += [":- mode ends(*,*,*).", f"ends({term(chain)},h({ends[0]}),h({ends[1]})) :- {term(chain[:0:-1])} = {term(chain[-2::-1])}."]
    return sheet, body + ["ends(X,A,B)", "c(N,A,B,p(F,L))", "p(F,L) = L"]


def layers(n):
    """Two terms of 12 layers of n equal nodes, each with eight children chosen among the next layer's; between two meetings of nodes stands a binding."""
    rng, nodes, singles = random.Random(n), names("X", n), names("S", 64 - n)
    sheet = [":- mode v(*,*). :- mode w(*,*). :- mode left(*,*). :- mode right(*,*)."]
    for name in "vw":
        above = ["g(" + ",".join(rng.choices(nodes, k=ARGUMENTS)) + ")" for _ in nodes]
        sheet += [f"{name}(z,{term(['k'] * n)}).", f"{name}(s(N),{term(above)}) :- {name}(N,{term(nodes)})."]
    one, other = [], []
    for single in singles:
        one += [*rng.choices(nodes, k=ARGUMENTS - 1), single]
        other += [*rng.choices(nodes, k=ARGUMENTS - 1), "k"]
    sheet += [f"left({term(nodes)},{term(one)}).", f"right({term(nodes)},{term(other)})."]
    return sheet, number("N", 12) + ["v(N,V)", "w(N,W)", "left(V,L)", "right(W,R)", "L = R"]


def two_spellings(n):
    """A large term in one piece against the same in 56 parts, in n copies each."""
    parts, piece = names("W", 56), term(["k"] * (n // 5 + 5))
    sheet = [
        ":- mode c(*,*,*).",
        "c(z,e,e).",
        f"c(s(N),p({term([piece] * 56)},L),p({term(parts)},R)) :- " + ", ".join(side_by_side([(one, piece) for one in parts])) + ", c(N,L,R).",
    ]
    return sheet, number("N", n) + ["c(N,L,R)", "L = R"]


def tall(n):
    """A term of 33 n light pairs in n copies, nested eleven deep and met by itself at each depth, deepest first, on a stack of a thousand pairs and more."""
    parts, high = names("V", 11), 14
    met = "q(" + ",".join(parts[:3:-1]) + ",q(" + ",".join(parts[3::-1]) + "))"
    rising = side_by_side([(f"Y{i}", f"z(Y{i + 1})") for i in range(high)])
    sheet = [
        ":- mode c(*,*,*,*). :- mode d(*,*,*,*,*).",
        "c(z,A,B,e).",
        f"c(s(N),A,B,p({met},L)) :- " + ", ".join(parted(parts, "A", 33 * n)) + ", c(N,B,A,L).",
        "d(z,E,F,E,F).",
        f"d(s(N),E,F,{nested(['z('] * high, 'Z')},Y0) :- " + ", ".join(rising) + f", d(N,E,F,Z,Y{high}).",
    ]
    light = side_by_side([("A", "h(o,o,o,o,o,o)"), ("B", "h(o,o,o,o,o,o)")])
    return sheet, number("N", n) + number("M", 76) + light + ["c(N,A,B,p(F,L))", "d(M,p(F,L),L,Y,Z)", "Y = Z"]


def one_slot(n):
    """The search for a cycle remembers for a term that it is done, in a slot that it shares: 56 n variables are bound in turn to two large terms of one slot.

    They are a term in one copy, and in the next copy the term of which it is the last part, 97 nodes behind it.
    """
    bound = "STUVWXYZ"
    sheet = [
        ":- mode big(*). :- mode two(*,*,*,*,*).",
        f"big(f({term(['k'] * 82)},{term(cycled(bound, 25 * n))})) :- t({','.join(bound)}) = t({','.join('k' * 8)}).",
        "two(z,o,o,G,H).",
        f"two(s(N),f(L,{term(names('V', 56))}),f(R,{term(cycled('GH', 56))}),G,H) :- two(N,L,R,G,H).",
    ]
    return sheet, number("N", n) + ["big(F)", "big(G)", "F = f(E,H)", "two(N,L,R,G,H)", "L = R"]


def reached(n):
    """A call that binds a variable to a term of its clause, and then one to a term under which 12 n cells are, each bound to a term of 22 n leaves or more."""
    parts = names("V", 11)
    sheet = [
        ":- mode c(*,*). :- mode q(*,*).",
        "c(z,e).",
        f"c(s(N),p(q({','.join(parts[:7])},q({','.join(parts[7:])})),L)) :- A = k, " + ", ".join(parted(parts, "A", 22 * n)) + ", c(N,L).",
        "q(g(X),Y).",
    ]
    return sheet, number("N", n) + ["c(N,L)", "q(Z,L)"]


def answer(n):
    """An answer of 6 n leaves, each a variable at the end of a chain of 59 n links."""
    links = names("X", 60)
    sheet = [
        ":- mode chain(*,*,*).",
        f"chain(z,E,{term(['E'] * (6 * n))}).",
        "chain(s(M),X1,D) :- L = " + term(links) + ", chain(M,X60,D), " + term(links[:0:-1]) + " = " + term(links[-2::-1]) + ".",
    ]
    return sheet, number("M", n) + ["chain(M,X,D)", "X = k"]


class Kind(NamedTuple):
    """A kind of sheets with its two sizes, and bounds of its own in seconds."""

    make: Callable
    small: int
    large: int
    run: float = STEP  # for a run at the larger size
    growth: float = 0  # for how many times as long it may take as at the smaller size, the start included; 0 where nothing is asked
    choices: float = 0  # for a run at the larger size with 13 choices; 0 where nothing is asked
    head: str = "run"
    answers: int = 1


KINDS = {
    "over-one-term": Kind(over_one_term, 37, 74, run=0.03, choices=10),
    "over-many-terms": Kind(over_many_terms, 40, 80, run=0.03, choices=10),
    "light-pairs": Kind(light_pairs, 80, 160, run=0.03, choices=10),
    "chains": Kind(chains, 55, 110, run=0.03, choices=10),
    "alternation": Kind(alternation, 40, 80, run=0.03, choices=10),
    "leaves": Kind(leaves, 45, 90, run=0.03, choices=10),
    "chained-alternation": Kind(chained_alternation, 34, 68, run=0.03, choices=20),
    "doubling": Kind(doubling, 15, 31, growth=2),
    "doubling-mixed": Kind(doubling_mixed, 8, 18, growth=2),
    "doubling-light": Kind(doubling_light, 8, 18, run=0.35),
    "out-of-step": Kind(out_of_step, 18, 36, answers=0),
    "out-of-step-pairs": Kind(out_of_step_pairs, 66, 132, answers=0),
    "endless": Kind(endless, 72, 145, answers=0),
    "many-mixed": Kind(many_mixed, 52, 104),
    "deep": Kind(deep, 60, 120, run=0.35),
    "zigzag": Kind(zigzag, 30, 60, run=0.35),
    "one-class": Kind(one_class, 12, 24, run=0.35),
    "raised": Kind(raised, 8, 16, run=0.35),
    "small-terms": Kind(small_terms, 120, COPIES, answers=0),
    "layers": Kind(layers, 25, 50),
    "two-spellings": Kind(two_spellings, 120, COPIES),
    "tall": Kind(tall, 80, 160, answers=0),
    "one-slot": Kind(one_slot, 117, 235),
    "reached": Kind(reached, 120, COPIES),
    "answer": Kind(answer, 120, COPIES, head="run(D)"),
}


def choosing(choices):
    """Clauses of `cs`, which is true in 2^choices ways; its brackets take no copies on a path, its two clauses take two."""
    some = min(choices, 7)
    first, second = (["(true;true)"] * count for count in (some, choices - some))
    return [":- mode cs. :- mode ct.", "cs :- " + ", ".join([*first, "ct"]) + ".", "ct :- " + ", ".join([*second, "true"]) + "."]


def texts(kind, n, choices=0):
    """A sheet and a goal; with choices the last literal is met anew in each of 2^choices alternatives, none of which is an answer."""
    head = KINDS[kind].head
    sheet, body = KINDS[kind].make(n)
    if choices:
        sheet = [*sheet, *choosing(choices)]
        body = [*body[:-1], "cs", body[-1], "fail"]
    return "\n".join([*sheet, f":- mode {head.replace('D', '*')}.", f"{head} :- " + ", ".join(body) + "."]) + "\n", head + ".\n"


def write(kind, n, folder, choices=0):
    sizes = {}
    for name, text in zip(("sheet", "goal"), texts(kind, n, choices)):
        sizes[name] = len(text)
        with open(os.path.join(folder, name), "w") as f:
            f.write(text)
    return sizes


def seconds(command, folder, most, rounds=ROUNDS):
    """CPU seconds of the fastest of some runs, or of the first where it takes a second, and what it prints; None where it is ended."""
    times = []
    while len(times) < rounds and (not times or times[0] < 1):
        before = resource.getrusage(resource.RUSAGE_CHILDREN)
        try:
            out = subprocess.run(command, cwd=folder, capture_output=True, text=True, check=False, timeout=most).stdout
        except subprocess.TimeoutExpired:
            return most, None
        after = resource.getrusage(resource.RUSAGE_CHILDREN)
        times.append(after.ru_utime + after.ru_stime - before.ru_utime - before.ru_stime)
    return min(times), out.strip()


def idle(runner):
    """CPU seconds of a run that does nothing."""
    with tempfile.TemporaryDirectory() as folder:
        for name, text in (("sheet", ""), ("goal", "true.")):
            with open(os.path.join(folder, name), "w") as f:
                f.write(text)
        return seconds([runner], folder, GIVEN_UP)[0]


# Takes the goal `run` of the file `sheet` to its first answer and prints the CPU seconds. A declaration of marks is a directive that does nothing.
SWIPL = """
:- set_prolog_flag(occurs_check, true).
:- op(1150, fx, mode).
mode(_).
main :-
    style_check(-singleton),
    load_files(sheet:sheet, [silent(true)]),
    statistics(cputime, Start),
    ignore(catch(sheet:run, _, true)),
    statistics(cputime, End),
    Seconds is End - Start,
    format("~6f~n", [Seconds]).
:- initialization(main, main).
"""


def swipl_seconds(kind, n):
    """CPU seconds of SWI-Prolog for the goal alone; SWIPL_GIVEN_UP where it takes longer."""
    with tempfile.TemporaryDirectory() as folder:
        write(kind, n, folder)
        with open(os.path.join(folder, "main.pl"), "w") as f:
            f.write(SWIPL)
        _, out = seconds(["swipl", "main.pl"], folder, SWIPL_GIVEN_UP, rounds=1)
    return SWIPL_GIVEN_UP if out is None else float(out.split("\n")[-1])


class Measured(NamedTuple):
    taken: float
    bytes: int
    end: str


def measured(runner, kind, n, choices=0, most=GIVEN_UP):
    with tempfile.TemporaryDirectory() as folder:
        sizes = write(kind, n, folder, choices)
        taken, out = seconds([runner], folder, most)
    return Measured(taken, sizes["sheet"], "ended" if out is None else out.split("\n")[-1])


def whole_seconds(runner, kind, n, once):
    """CPU seconds of a run that takes the step of a kind STEPS times, from one that takes it 2^choices times and one that takes it once."""
    choices = 0
    while choices < 10 and once * 2 ** (choices + 1) < 4:
        choices += 1
    if choices == 0:
        return STEPS * once
    chosen = measured(runner, kind, n, choices)
    assert chosen.end.startswith("end done 0 "), (kind, choices, chosen)
    return STEPS * (chosen.taken - once) / (2**choices - 1)


def report(runner, name, start, swipl, whole):
    """Prints what is measured of a kind, and returns which bounds it passes."""
    kind, passed = KINDS[name], []
    small, large = (measured(runner, name, n) for n in (kind.small, kind.large))
    growth = (large.taken - start) / max(small.taken - start, LEAST)
    columns = [f"{name:19} n {kind.small:3} {1000 * small.taken:8.1f} ms, n {kind.large:3} {1000 * large.taken:8.1f} ms, {growth:5.1f} times"]
    columns.append(f"{large.bytes:5} bytes")
    most = kind.run
    if swipl and kind.head == "run":
        theirs = swipl_seconds(name, kind.large)
        most = max(most, min(2 * theirs, LONGEST)) if most >= STEP else most
        sign = "<" if theirs == SWIPL_GIVEN_UP else ""
        columns.append(f"SWI-Prolog {1000 * theirs:7.1f} ms, ratio {sign}{(large.taken - start) / max(theirs, 0.001):.3f}")
    if whole and kind.head == "run":
        run = whole_seconds(runner, name, kind.large, large.taken - start)
        columns.append(f"{STEPS} steps {run:6.0f} s")
        passed += ["whole run"] if run > WHOLE else []
    if whole and kind.choices:
        chosen = measured(runner, name, kind.large, 13, 10 * kind.choices)
        columns.append(f"13 choices {chosen.taken:.1f} s")
        passed += ["choices"] if chosen.taken > kind.choices or not chosen.end.startswith("end done 0 ") else []
    expected = f"end done {kind.answers} "
    passed += [one.end for one in (small, large) if not one.end.startswith(expected)]
    passed += ["run"] if large.taken - start > most else []
    passed += ["growth"] if kind.growth and large.taken > kind.growth * small.taken else []
    print("; ".join(columns + ["PASSED: " + ", ".join(passed)] * bool(passed)), flush=True)
    return passed


def main(args):
    runner = os.path.abspath(os.environ.get("RUNNER", "crates/runner/out/runner"))
    if len(args) >= 3 and args[1].isdigit():
        print(write(args[0], int(args[1]), args[2], *map(int, args[3:4])))
        return 0
    parser = argparse.ArgumentParser()
    parser.add_argument("--swipl", action="store_true")
    parser.add_argument("--whole", action="store_true")
    parser.add_argument("kinds", nargs="*", metavar="KIND", choices=[[], *KINDS])
    asked = parser.parse_args(args)
    swipl = asked.swipl and shutil.which("swipl") is not None
    if asked.swipl and not swipl:
        print("there is no swipl: SWI-Prolog's times are left out")
    start = idle(runner)
    slow = [name for name in asked.kinds or KINDS if report(runner, name, start, swipl, asked.whole)]
    print("bounds are passed: " + ", ".join(slow) if slow else "no bound is passed")
    return 1 if slow else 0


if __name__ == "__main__":
    sys.exit(main(sys.argv[1:]))
