"""Sheets for which the test of REQUESTS (xii) takes long, and the CPU time of crates/engine_cases on each.

    tests/determinacy_times.py        milliseconds a sheet; exit status 1 where one is over the bound

PROGRAM names another program than crates/engine_cases/out/engine_cases. It runs in a folder with no other file of cases; the time of a file without a sheet is taken off.
"""

import os
import resource
import subprocess
import sys
import tempfile

import engine

BOUND = 100  # milliseconds
REPEATS, ROUNDS = 4, 3
SIGNS = list("BCDEFGHIJKLMNOPQRSTUVWXYZ") + [a + b for a in "ABCDEF" for b in "abcdefghij"]


def tree(terms):
    """One term over all of them, at most eight to a bracket."""
    while len(terms) > 1:
        terms = ["l(%s)" % ",".join(terms[n : n + 8]) for n in range(0, len(terms), 8)]
    return terms[0]


def filled(start, clause, most=engine.CLAUSES):
    """As many more clauses as a sheet has room for, or as there may be; each has its number last, so all are apart, and only there."""
    sheet, number = start, start.count(".") - 1
    while number < most and len(sheet + clause % number) <= engine.SHEET_BYTES:
        sheet, number = sheet + clause % number, number + 1
    return sheet


def large_heads(leaf, count):
    """256 heads that differ only at the end of a large term."""
    return filled(":-mode p(+,+).", "p(%s,%%d)." % tree([leaf] * count))


def tied(pairs, small):
    """So many clauses p(V,V,n), and clauses in whose heads V meets two terms: all that stands left in the pairs, and all that stands right."""
    start = ":-mode p(+,+,+)." + "".join("p(V,V,%d)." % n for n in range(small))
    return filled(start, "p(%s,%s,%%d)." % tuple(map(tree, map(list, zip(*pairs)))))


def links(count, leaves, small):
    """Each of so many variables is a bracket around the next, the last one a term of many leaves. They are bound last first: the occurs check of each
    goes through all that was bound before."""
    names = SIGNS[: count + 1]
    return tied([("A", "a"), (names[-1], tree(["A"] * leaves))] + [(one, "f(%s)" % after) for one, after in zip(names, names[1:])][::-1], small)


def alternation(count, leaves, small):
    """Bindings that have to do with each other: so many times Y = g(X), W = h(V), X = k(V,G), with a term G of many leaves."""
    names, pairs = iter(SIGNS[1:]), [("B", tree(["A"] * leaves))]
    for _ in range(count):
        v, w, x, y = (next(names) for _ in range(4))
        pairs += [(y, "g(%s)" % x), (w, "h(%s)" % v), (x, "k(%s,B)" % v)]
    return tied(pairs, small)


def bound_leaves(count, leaves, small):
    """A term G of many leaves, so many of them variables that are bound in turn with as many that are bound to k(G)."""
    names = [SIGNS[1 + n * 3 : 4 + n * 3] for n in range(count)]
    pairs = [("B", tree([u for u, _, _ in names] + ["A"] * leaves))]
    for u, v, w in names:
        pairs += [(u, "f(%s)" % v), (w, "k(B)")]
    return tied(pairs, small)


def endless(leaves, small):
    """A clause that meets so many others: with each it makes two cyclic terms of so many leaves a turn, and only then are they unified."""
    large = tree(["a"] * leaves)
    start = ":-mode p(+,+).p(t(h(%s,X),h(%s,W),X,W,W),N)." % (large, large)
    return filled(start, "p(t(V,U,V,U,V),%d).", small)


def endless_pairs(half):
    """The same in each pair of a clause from one half and a clause from the other. Within a half clauses have another number."""
    numbers = range(half)
    halves = ["p(%d,N,t(X,W,X,W,X))." % n for n in numbers] + ["p(N,%d,t(h(Y),h(Z),Y,Z,Z))." % n for n in numbers]
    return ":-mode p(+,+,+)." + "".join(halves)


def small_terms(links, leaves, small):
    """Small terms with variables at the end of a chain of so many links, met so many times; a variable is bound to one that stands earlier."""
    chain = SIGNS[2 : links + 2]
    pairs = [(tree(chain), "C")] + list(zip(chain[:0:-1], chain[-2::-1]))
    pairs += [("A", "h(%s)" % ",".join(chain[-1:] * 6)), ("B", "h(%s)" % ",".join(chain[-2:-4:-1] * 3))]
    return tied(pairs + [(tree(["A"] * leaves), tree(["B"] * leaves))], small)


SHEETS = {
    "large heads, constants": large_heads("a", 22),
    "large heads, one variable": large_heads("X", 22),
    "links, few leaves": links(60, 8, 230),
    "links over 128 leaves": links(60, 128, 235),
    "links over 512 leaves": links(60, 512, 240),
    "links over 700 leaves": links(60, 700, 240),
    "alternation over 128 leaves": alternation(15, 128, 235),
    "alternation over 512 leaves": alternation(15, 512, 240),
    "bound leaves, 128 more": bound_leaves(20, 128, 235),
    "bound leaves, 512 more": bound_leaves(20, 512, 240),
    "small terms": small_terms(33, 2350, 235),
    "endless, in pairs": endless_pairs(128),
    "endless, many leaves": endless(2000, 255),
}


def seconds(program, cases):
    with tempfile.TemporaryDirectory() as folder:
        with open(os.path.join(folder, "determinacy"), "wb") as file:
            file.write(cases)
        before = resource.getrusage(resource.RUSAGE_CHILDREN)
        output = subprocess.run([program], cwd=folder, capture_output=True, check=True).stdout
        after = resource.getrusage(resource.RUSAGE_CHILDREN)
    return after.ru_utime + after.ru_stime - before.ru_utime - before.ru_stime, output


def main():
    program, slow = os.path.abspath(os.environ.get("PROGRAM", "crates/engine_cases/out/engine_cases")), False
    for name, sheet in SHEETS.items():
        record = b"D" + len(sheet).to_bytes(3, "little") + sheet.encode()
        times = []
        for _ in range(ROUNDS):
            empty, _ = seconds(program, b"")
            taken, output = seconds(program, record * REPEATS)
            assert output == b"yes\n" * REPEATS, (name, output)
            times.append((taken - empty) / REPEATS * 1_000)
        slow |= min(times) > BOUND
        print("%-28s %4d clauses %6d bytes %7.1f ms" % (name, sheet.count(".") - 1, len(sheet), min(times)), flush=True)
    return slow


if __name__ == "__main__":
    sys.exit(main())
