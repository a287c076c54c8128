"""Cases for running with a trace: a sheet, a goal, a trace and the settings."""

from itertools import product
from pathlib import Path

import engine
import examples
import random_sheets
import run_cases

SEED = 909
ALLOWANCE, WANTED, ROOM = 65_536, 64, 8_192

SEEN = ":-mode seen(*,*,*)."
ALL = "seen(K,E,B)."

# A ward's evening: when the level was first off, when it was rinsed, and whether a rinse came after.
EVENING = (
    ":-mode seen(-,-,-). :-mode off(-,-). off(K,E) :- seen(K,E,off).\n"
    ":-mode rinsed(-). rinsed(E) :- seen(_,E,rinse).\n"
    ":-mode next(+,-). next(1,2). next(2,3). next(3,4). next(4,5). next(5,6).\n"
    ":-mode follows(-,-). follows(A,B) :- seen(K,_,A), next(K,L), seen(L,_,B).\n"
    ":-mode ended(-). ended(E) :- off(K,_), next(K,L), seen(L,E,rinse)."
)

# Runs short enough for every allowance.
RAISED = [
    (SEEN, [ALL, "seen(K,E,B), seen(L,E,C).", "seen(1,E,B), seen(3,F,B).", "(seen(K,E,low);seen(K,E,off)).",
            "seen(K,_,B), (B = off; B = rinse).", "seen(K,E,B), fail."]),
    (SEEN + "seen(0,0,mine).", [ALL, "seen(K,E,B), seen(L,F,B)."]),
    (SEEN + ":-mode p(*). p(K):-seen(K,_,off). p(K):-seen(K,E,low),seen(_,E,B).", ["p(K).", "p(K), p(K)."]),
    (SEEN + ":-mode n(*,*). n(1,2). n(2,3). :-mode t(*,*). t(A,B):-seen(K,_,A),n(K,L),seen(L,_,B).", ["t(A,B).", "t(X,rinse)."]),
]


def record(tick, band=None):
    """A record of kind 1 with that band's number, or of kind 2."""
    kind = b"\x02" if band is None else b"\x01"
    return kind + (tick % 65_536).to_bytes(2, "little") + (b"" if band is None else bytes([band]))


def steps(start, *differences, bands=(0, 1, 2, 3, 4)):
    """Records of kind 1, each so many ticks after the one before."""
    trace, tick = record(start, bands[0]), start
    for number, difference in enumerate(differences, 1):
        tick += difference
        trace += record(tick, bands[number % len(bands)])
    return trace


def evening(add):
    """The ward's example, as its folder has it."""
    folder = Path(__file__).resolve().parent.parent / "examples" / "evening"
    texts = [(folder / name).read_bytes() for name in ("sheet", "goal", "trace")]
    add(*texts)
    assert engine.printed(engine.run(*texts[:2], ALLOWANCE, WANTED, ROOM, trace=texts[2])) == (folder / "answer").read_bytes()


def worked_examples(add):
    for sheet, goal, trace, _ in examples.TRACED:
        add(sheet, goal, trace)
        if len(trace) < 99:
            for allowance, wanted in ((0, 1), (65_537, 1), (1, 0), (1, 65), (1, 1), (2, 64)):
                add(sheet, goal, trace, allowance=allowance, wanted=wanted)
    for sheet, goal, _ in examples.RUNS:
        for trace in (b"", b"\0", record(9), record(9) + b"\0\0"):
            add(sheet, goal, trace)
    for sheet, goal, _ in examples.STORED:
        for trace in (b"", record(9), record(9, 1), b"\1"):
            add(sheet, goal, trace, stored=True)


def wraps(add):
    """Neighbours at every distance near 0, half the circle and the whole of it, from every place near the wrap."""
    near = (0, 1, 2, 255, 256, 257, 32_767, 32_768, 32_769, 65_279, 65_280, 65_534, 65_535)
    for start, difference in product(near, repeat=2):
        add(SEEN, ALL, record(start, 0) + record(start + difference, 1))
        add(SEEN, ALL, record(start) + record(start + difference, 2))
    for difference in near:
        add(SEEN, ALL, steps(65_530, *[difference] * 6))
        add(SEEN, ALL, steps(5, difference, 65_535, difference, 0, difference))
        add(SEEN, ALL, b"".join(record(7 + n * difference, None if n % 3 else n // 3) for n in range(13)))


def kinds(add):
    """Every byte as a kind, as a band and behind filler, first in the trace and later."""
    for byte in range(256):
        for start in (b"", record(3), record(3, 4)):
            add(SEEN, ALL, start + bytes([byte, 0, 0, 0]))
        add(SEEN, ALL, record(3, 1) + record(4, byte))
        add(SEEN, ALL, record(3, byte) + b"\x03")
        add(SEEN, ALL, record(3) + b"\0\0" + bytes([byte]) + b"\0")


def cut(add):
    """Traces cut at each byte, with filler behind, and with one byte changed."""
    for trace in (
        record(1, 0) + record(2) + record(3, 4) + record(3, 3) + record(1),
        record(5) + record(5) + record(4, 2) + b"\0" * 5,
        record(65_535, 1) * 3 + record(0, 2),
    ):
        for end in range(len(trace) + 1):
            for behind in (b"", b"\0", b"\0" * 7, b"\0\1", b"\1", b"\3"):
                add(SEEN, ALL, trace[:end] + behind)
            add("", "true.", trace[:end])
        for place, byte in product(range(len(trace)), (0, 1, 2, 3, 5, 255)):
            add(SEEN, ALL, trace[:place] + bytes([byte]) + trace[place + 1 :])


def fillers(add):
    """Filler of many lengths behind 0 to 2 records, and a byte that is not zero at each place in it."""
    for start in (b"", record(9, 2), record(9) + record(8, 1)):
        for length in [*range(20), 255, 256, 257]:
            add(SEEN, ALL, start + b"\0" * length)
            add("", "true.", start + b"\0" * length)
        for place in range(20):
            add(SEEN, ALL, start + b"\0" * place + b"\1" + b"\0" * (19 - place))
            add("", "!", start + b"\0" * place + b"\xff")


def limits(add):
    """192 and 193 records, 16,384 and 16,385 bytes, both at once, and each with the faults that are told before and after."""
    goals = "seen(K,E,rinse).", "seen(192,E,B).", "seen(193,E,B).", "!"
    for count in (191, 192, 193, 194):
        many = b"".join(record(300 * n, n % 5) for n in range(count))
        for goal in goals:
            add(SEEN, goal, many)
        for behind in (b"\0", record(7), b"\1", b"\3", b"\0\1", record(0, 5)):
            add(SEEN, goals[1], many + behind)
        add("", "!", many)
        add("p(", "!", many)
    for size in (16_383, 16_384, 16_385):
        for trace in (record(9, 4) + b"\0" * (size - 4), b"\3" + b"\0" * (size - 1), b"\0" * (size - 1) + b"\1"):
            add(SEEN, goals[0], trace)
    spread = b"".join(record(65_535 * n) for n in range(5_205))
    for size in (16_384, 16_385):
        add(SEEN, "seen(K,E,B).", (spread + b"".join(record(n, n % 5) for n in range(192)))[:size - 1] + b"\0")


def elapsed(add):
    """Elapsed past 65,535, and the longest: each record one tick before the last on the circle."""
    for count in (1, 2, 3, 10, 100, 1_000, 5_459):
        for last in (record(65_535 * count, 3), record(65_535 * count, 3) * 2):
            add(SEEN, ALL, b"".join(record(65_535 * n) for n in range(count)) + last)
    for n in range(1, 8):
        add(SEEN, ALL, record(0, 0) + record(65_535) * n + record(0, 1))
        add(SEEN, ALL, b"".join(record(32_768 * k, k % 5) for k in range(2 * n + 1)))
    longest = b"".join(record(65_535 * n) for n in range(5_460)) + record(65_535 * 5_460, 4)
    add(SEEN, ALL, longest)
    add(SEEN, ALL, longest + b"\0" * (16_384 - len(longest)))
    add(SEEN, ALL, record(0, 0) + longest[3:])


def declared(add):
    """`seen` with each set of marks, with other numbers of arguments, with clauses of the sheet's own, undeclared, called in every way."""
    trace = record(3, 0) + record(9) + record(20, 3) + record(20, 4)
    goals = ["seen(K,E,B).", "seen(2,17,off).", "seen(2,E,B).", "seen(02,E,B).", "seen(K,E,K).", "seen(K,f(E),B).", "seen(4,E,B).", "seen(K,K,B)."]
    for marks in product("+-*", repeat=3):
        for goal in goals[:3]:
            add(":-mode seen(%s)." % ",".join(marks), goal, trace)
    own = ["", " seen(0,0,mine).", " seen(K,K,K).", " seen(2,17,off) :- fail. seen(X,Y,Z) :- X = Y, Y = Z.", " seen(1,1,f(B))."]
    for clauses, goal in product(own, goals):
        add(SEEN + clauses, goal, trace)
        add(SEEN + clauses, goal, b"")
    for sheet in ("", ":-mode p. p.", ":-mode seen. seen.", ":-mode seen(-,-). seen(a,b).", ":-mode seen(-,-,-,-). seen(a,b,c,d).", ":-mode see(*,*,*). see(a,b,c).",
                  ":-mode seens(*,*,*). seens(a,b,c).", ":-mode seen(*,*). " + SEEN, ":-mode seen(*,*). seen(a,b). " + SEEN, SEEN + " :-mode seen(*,*). seen(a,b)."):
        for given, goal in product((trace, b"", record(9), b"\0", b"\3"), ("true.", "seen(K,E,B).", "seen(a,B).")):
            add(sheet, goal, given)
    for sheet in (":-mode seen(*,*,*). :-mode p.", ":-mode p. p :- q. " + SEEN, SEEN + " seen(X,Y,Z) :- p(X).", SEEN + SEEN):
        add(sheet, "true.", trace)
        add(sheet, "true.", trace, stored=True)
        add(sheet, "true.", b"\3")


def sessions(add):
    """Clauses over facts: an evening with its goals, goals that fail, every end at its edge, calls at the longest path."""
    evening = b"".join(record(65_000 + 90 * n, band) for n, band in enumerate((1, 1, 2, None, 1, 0, 3, 4, 3)))
    goals = ["ended(E).", "follows(off,X).", "follows(A,B), A = B.", "rinsed(E), off(K,E).", "off(K,E), rinsed(E).", "follows(X,mine).", "seen(K,E,B), fail.",
             "(off(K,E);rinsed(E)).", "seen(K,E,B), (B = off; B = rinse), next(K,L).", "seen(K,_,steady), seen(L,_,steady), K = L."]
    for goal in goals:
        for trace in (evening, evening[:20], b""):
            whole = add(EVENING, goal, trace)
            if isinstance(whole, engine.Report):
                for allowance in {1, whole.steps - 1, whole.steps, whole.steps + 1} - {0}:
                    add(EVENING, goal, trace, allowance=allowance)
                for wanted in {1, whole.answers, whole.answers + 1} - {0}:
                    add(EVENING, goal, trace, wanted=wanted)
                for room in (len(whole.text) - 1, len(whole.text), len(whole.text) // 2):
                    if room >= 0:
                        add(EVENING, goal, trace, room=room)
    deep = SEEN + ":-mode l(*). l(N) :- seen(N,_,_). l(N) :- l(N)."
    for goal in ("l(1).", "l(2).", "l(3).", "l(K)."):
        add(deep, goal, record(0, 1) + record(1, 2))
    only = "".join(":-mode l%d." % n for n in range(2)) + SEEN + "l0 :- seen(1,_,_), l0. l1 :- l1, seen(1,_,_)."
    for goal in ("l0.", "l1."):
        add(only, goal, record(0, 0))
        add(only, goal, record(0))


def every_allowance(add):
    """REQUESTS (xiii): runs at every allowance, with facts and with none, to each of the ends."""
    trace = record(65_530, 0) + record(2) + record(9, 3) + record(9, 4)
    for sheet, goals in RAISED:
        for goal, given in product(goals, (trace, b"")):
            run_cases.raised(add, sheet, goal, given)
    for goal in RAISED[0][1]:
        for settings in ({"wanted": 1}, {"wanted": 2}, {"room": 20}, {"room": 40}):
            run_cases.raised(add, SEEN, goal, trace, **settings)
    for sheet, goals in run_cases.BRACKETED:
        for goal in goals:
            run_cases.raised(add, sheet, goal, b"")
    run_cases.raised(add, SEEN + "seen(K,E,B):-seen(K,E,B).", "seen(1,E,B).", record(9, 3))
    for sheet, goal, given in ((SEEN, ALL, b"\3"), ("", ALL, trace), (SEEN, "see.", trace), ("!", ALL, trace)):
        for allowance in (1, 2, 3, 65_535, ALLOWANCE):
            add(sheet, goal, given, allowance=allowance)


def crowded(add):
    """A sheet at 256 clauses, 64 declarations or 16,384 bytes, with no fact, one and 192."""
    many = b"".join(record(7 * n, n % 5) for n in range(192))
    clauses = SEEN + "seen(0,%d,mine)." * 256 % tuple(range(256))
    names = SEEN + "".join(":-mode p%d. p%d." % (n, n) for n in range(63))
    for sheet in (clauses, names):
        for trace in (b"", record(9, 3), many, many + record(0, 0)):
            add(sheet, "seen(192,E,B).", trace)
        long = sheet + " " * (16_384 - len(sheet))
        add(long, "seen(192,E,B).", many)
        add(long + " ", "seen(192,E,B).", many)
        add(sheet, "seen(K,E,rinse).", many)
        add(sheet, "seen(K,E,B), fail.", many)


def by_chance(add, rng):
    """Sheets and goals of which one predicate is renamed to `seen`, over traces by chance."""
    made = 0
    while made < 150:
        lines, predicates = random_sheets.chance_sheet(rng, "*", facts=0.7, most_clauses=6)
        three = [name for name, marks in predicates if len(marks) == 3]
        if not three:
            continue
        sheet, goal = "\n".join(lines), random_sheets.chance_goal(rng, predicates)
        sheet, goal = (text.replace(three[0] + "(", "seen(") for text in (sheet, goal))
        if len(sheet) > 300:
            continue
        tick = rng.randrange(65_536)
        trace = b""
        for _ in range(rng.randint(0, 6)):
            tick += rng.choice((0, 1, 1, 700, 40_000, 65_535))
            trace += record(tick, rng.choice((None, 0, 1, 2, 3, 4)))
        trace += rng.choice((b"", b"", b"\0", b"\0\0\0"))
        made += 1
        add(sheet, goal, trace, allowance=3_000, stored=True)
        add(sheet, goal, trace, allowance=rng.randint(1, 40), wanted=rng.randint(1, 4), room=rng.randint(0, 120), stored=True)
        damaged = bytearray(trace)
        if damaged:
            damaged[rng.randrange(len(damaged))] = rng.choice((0, 1, 2, 3, 4, 5, 255))
            add(sheet, goal, bytes(damaged), allowance=3_000, stored=True)


def make(add, rng):
    evening(add)
    worked_examples(add)
    wraps(add)
    kinds(add)
    cut(add)
    fillers(add)
    limits(add)
    elapsed(add)
    declared(add)
    sessions(add)
    every_allowance(add)
    crowded(add)
    by_chance(add, rng)
