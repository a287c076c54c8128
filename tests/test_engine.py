"""Holds the engine to the worked examples; exit status 1 on any failure. make_cases.py runs it first."""

import itertools
import random
import sys

import engine
import examples
import random_sheets
import run_cases
import workings

passed = failed = 0


def expect(what, got, wanted):
    global passed, failed
    if got == wanted:
        passed += 1
    else:
        failed += 1
        print("%r: got %r, wanted %r" % (what, got, wanted))


def lines(answer):
    return engine.printed(answer).decode().removesuffix("\n")


def reading_of(line, sheet):
    """What reading alone answers where checking answers with the line."""
    if line.startswith("refused") and line.split()[2] in ("8", "9", "10", "16"):
        modes = sheet.count(b":-mode") + sheet.count(b":- mode")
        return "accepted %d %d" % (modes, sheet.count(b".") - modes)
    return line


def test_reading():
    for sheet, line in examples.CHECKS:
        expect(sheet, lines(engine.read_sheet(sheet)), reading_of(line, sheet))
    for goal, line in examples.GOALS:
        expect(goal, lines(engine.read_goal(goal)), line)


def test_checking():
    for sheet, line in examples.CHECKS:
        expect(sheet, lines(engine.check_sheet(sheet)), line)
        wanted = line if line.startswith("refused") else "refused goal 5 0 0 0 0"
        expect(sheet, lines(engine.check_goal(sheet, b"")), wanted)
    for sheet, goal, output in examples.RUNS:
        wanted = output if output.startswith("refused") else lines(engine.read_sheet(sheet))
        expect((sheet, goal), lines(engine.check_goal(sheet, goal)), wanted)


def test_lists():
    """Two declarations and a clause that does not check, then clauses that do, then none; lists of 0 to 3 entries lent."""
    sheet = b":-mode p(+). :- mode qq. p(X) :- r."
    found, held = [(7, 1, 1), (21, 2, 0)], [(90, 91, 92), (93, 94, 95), (96, 97, 98)]
    for size in range(4):
        wanted = found[:size] + held[2:size]
        expect(size, engine.read_lent(sheet, held[:size]), ((2, 1), wanted))
        expect(size, engine.check_lent(sheet[:-2] + b"qq. qq.", held[:size]), ((2, 2), wanted))
        expect(size, engine.check_lent(sheet[:-11], held[:size]).entries, held[:size])
        expect(size, engine.check_lent(sheet, held[:size]).entries, held[:size])
        expect(size, engine.read_lent(sheet + b"!", held[:size]).entries, held[:size])


def test_searches():
    """A match at each place, a repeat, another number of arguments, an entry past the end, words left over."""
    twice, far = [0, 2, 1, 0, 3, 2, 1, 0], [2**32 - 1, 1, 1, 0, 4, 1, 1, 0]
    for words, name, arguments, answer in (
        (twice, b"ab", 1, (0, 1)),
        ([1] + twice[1:], b"ab", 1, (1, 2)),
        (twice, b"ab", 2, (2,)),
        (far, b"b", 1, (1, 2)),
        ([4, 2] + twice[2:], b"b", 1, (2,)),
        (far[:7], b"b", 1, (1,)),
        ([6, 0, 0, 0, 5, 0, 0, 0], b"", 0, (1, 2)),
        ([], b"", 0, (0,)),
    ):
        expect((words, name, arguments), engine.look_up(b"abcab", words, name, arguments), answer)


def test_running():
    for sheet, goal, output in examples.RUNS:
        expect((sheet, goal), lines(engine.run(sheet, goal, 65_536, 16, 4_096)), output)
    for allowance, wanted, room, sheet, goal, output in examples.SETTINGS:
        report = engine.run(sheet, goal, allowance, wanted, room)
        expect((allowance, wanted, room, sheet, goal), lines(report), output)
    for sheet, goal, output in examples.STORED:
        expect((sheet, goal), lines(engine.run(sheet, goal, 65_536, 16, 4_096, True)), output)


def test_traces():
    for sheet, goal, trace, output in examples.TRACED:
        expect((sheet, goal, trace), lines(engine.run(sheet, goal, 65_536, 16, 4_096, trace=trace)), output)
        expect((sheet, goal, trace), lines(engine.run(sheet, goal, 0, 16, 4_096, trace=trace)), "refused 1 0 0 0 0")
    for sheet, goal, output in examples.RUNS:
        for trace in (b"\0", b"\2\1\0", b"\2\0\0\0"):
            expect((sheet, goal, trace), lines(engine.run(sheet, goal, 65_536, 16, 4_096, trace=trace)), output)
    declared = examples.SEEN + b"".join(b":-mode p%d." % n for n in range(63))
    full = declared + b"p0." * 193 + b"".join(b"p%d." % n for n in range(1, 63)) + b"seen(0,0,off)."
    expect("256 clauses", lines(engine.check_sheet(full)), "accepted 64 256")
    report = engine.run(full, b"seen(K,0,off).", 65_536, 16, 4_096, trace=b"\1\0\0\3")
    expect("256 clauses and a fact", lines(report), "K = 0\nK = 1\nend done 2 5")


def matches(term, ground, values):
    """Whether values, which grow, make the term that ground one."""
    if isinstance(term, engine.Variable):
        return values.setdefault(term.number, ground) == ground
    parts = zip(term.arguments, ground.arguments)
    return engine.predicate_of(term) == engine.predicate_of(ground) and all(matches(*pair, values) for pair in parts)


def instances(clause, universe):
    """The clause's head with each choice of these terms for its variables."""
    for values in itertools.product(universe, repeat=len(clause.variables)):
        yield engine.instance(clause.head, values)


def test_determinacy():
    """The worked examples; then small heads by chance, whose common instances are looked for one by one among ground terms."""
    for sheet, line in examples.DETERMINATE:
        expect(sheet, lines(engine.determinate(sheet)), line)
    universe = [engine.Compound(name, ()) for name in (b"a", b"b")]
    for _ in range(8):
        universe += [engine.Compound(b"f", (term,)) for term in universe[-2:]]
    rng, parts, found = random.Random(12), ("X", "Y", "X", "Y", "a", "b", "f(X)", "f(Y)", "f(a)", "f(f(X))"), 0
    for _ in range(300):
        heads = ["p(%s)" % ",".join(rng.choices(parts, k=3)) for _ in range(2)]
        sheet = (":-mode p(+,+,+). %s. %s." % tuple(heads)).encode()
        one, other = engine.parsed_sheet(sheet).clauses
        common = any(matches(other.head, head, {}) for head in instances(one, universe))
        found += common
        expect(sheet, lines(engine.determinate(sheet)), "no 1 2" if common else "yes")
    expect("both answers are met", 50 < found < 250, True)


def test_afresh():
    """The worked examples, and each output written again."""
    for room, sheet, output in examples.AFRESH:
        answer = engine.afresh(sheet, room)
        if isinstance(answer, engine.Refusal):
            expect((room, sheet), lines(answer), output)
        else:
            expect((room, sheet), answer.decode(), output)
            expect(output, engine.afresh(answer, len(answer)), answer)


def test_workings():
    """The worked examples; then those of each answer of the worked runs, and of runs by chance, with room for the line and with less."""
    for room, sheet, goal, records, output in examples.WORKINGS:
        answer = workings.check(sheet, goal, records, room)
        expect((room, sheet, goal, records), (answer if isinstance(answer, bytes) else engine.printed(answer)).decode(), output + "\n")
    rng = random.Random(11)
    runs = [texts[:2] for texts in examples.RUNS] + [tuple(text.encode() for text in random_sheets.runnable(rng)) for _ in range(200)]
    for sheet, goal in runs:
        for line, records in workings.recorded(sheet, goal, 3_000, 16, 4_096):
            expect((sheet, goal, records), workings.check(sheet, goal, records, len(line)), line)
            expect((sheet, goal, records), workings.check(sheet, goal, records, len(line) - 1), engine.Refusal("", 18, 0, 0, 0, 0, b""))


def test_counts():
    for sheet, goal, steps, counts in examples.COUNTS:
        expect((sheet, goal), engine.open_counts(sheet, goal, steps), counts)
    rng = random.Random(3)
    for _ in range(300):
        sheet, goal = (text.encode() for text in random_sheets.runnable(rng))
        expect((sheet, goal), engine.open_counts(sheet, goal, 200)[:2], (0, 0))


def test_large_terms():
    """A term of 57,600 levels: t, c with 15 equations, 240 times d with a clause
    that does not unify, one that does and 15 equations, the last d, the answer,
    then 2 steps for the last d and 1 for each other call."""
    links = ["V%d = %s" % (n, run_cases.nested(16, "V%d" % (n + 1))) for n in range(15)]
    sheet = run_cases.tower("c", 240) + (
        ":-mode t. t :- c(N), d(N,X). :-mode d(+,*). d(z,z). d(s(N),V0) :- %s, d(N,V15)."
        % ", ".join(links)
    )
    first, rest = 1 + 16 + 240 * 17 + 1 + 1, 2 + 242
    for wanted, end in ((1, "wanted 1 %d" % first), (2, "done 1 %d" % (first + rest))):
        report = engine.run(sheet.encode(), b"t.", 65_536, wanted, 4)
        expect("t", lines(report), "yes\nend " + end)


def run():
    """Whether the engine gives what the worked examples say."""
    tests = test_reading, test_checking, test_lists, test_searches
    for test in (*tests, test_determinacy, test_afresh, test_workings, test_running, test_traces, test_counts, test_large_terms):
        test()
    print("%d passed, %d failed" % (passed, failed))
    return failed == 0


if __name__ == "__main__":
    sys.exit(not run())
