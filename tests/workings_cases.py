"""Cases for REQUESTS (xi), the vendor's workings: a sheet, a goal, workings and the room for the line."""

import random
from itertools import product

import engine
import examples
import run_cases
import workings
from workings import LEFT, RIGHT, clause_record

ROOM, STEPS = 4_096, 5_000
SHORT = 34  # bytes of sheet, goal and workings together, below which each byte is damaged
LONG, MOST_LONG = 400, 4  # bytes of a sheet that is long, and how many of them are tried

LOOP = ":-mode l. l:-l. l."
SIDED = ":-mode l. l:-(l;true). l:-true,true."


def worked_examples(add):
    for room, sheet, goal, records, _ in examples.WORKINGS:
        add(sheet, goal, records, room)


def goals():
    """Sheets and goals of the run cases that have no mark, each once."""
    found = {}

    def note(sheet, goal, allowance=run_cases.ALLOWANCE, wanted=run_cases.WANTED, room=ROOM, stored=False):
        texts = tuple(text if isinstance(text, bytes) else text.encode() for text in (sheet, goal))
        asked = (*texts, allowance, wanted, room, stored)
        if asked not in found:
            found[asked] = engine.run(*asked)
        return found[asked]

    run_cases.make(note, random.Random(run_cases.SEED))
    return dict.fromkeys(asked[:2] for asked in found if not asked[-1])


def damaged(records):
    """Workings with a byte left out, written twice, or changed; cut at each byte, or with a byte behind."""
    for at in range(len(records)):
        yield records[:at] + records[at + 1 :]
        yield records[: at + 1] + records[at:]
        for byte in (0, 1, 2, 3, 4, 255):
            yield records[:at] + bytes([byte]) + records[at + 1 :]
        yield records[:at]
    for byte in (0, 1, 2, 3, 4, 255):
        yield records + bytes([byte])


def rearranged(records):
    """Workings with a record left out, added, exchanged with the next one, or with another number or side."""
    whole = workings.split(records)
    for at in range(len(whole) + 1):
        for more in (LEFT, RIGHT, clause_record(1), clause_record(2)):
            yield b"".join([*whole[:at], more, *whole[at:]])
    for at, record in enumerate(whole):
        yield b"".join(whole[:at] + whole[at + 1 :])
        yield b"".join([*whole[:at], *whole[at : at + 2][::-1], *whole[at + 2 :]])
        for number in range(5):
            yield b"".join([*whole[:at], clause_record(number), *whole[at + 1 :]])
        yield b"".join([*whole[:at], RIGHT if record == LEFT else LEFT, *whole[at + 1 :]])


def answers_of_runs(add):
    """The workings of each answer with room for its line, those of a goal's first answer with one byte less too; of short ones each byte and
    each record damaged. Of a few sheets that are long the first answer."""
    long = 0
    for sheet, goal in goals():
        answers = workings.recorded(sheet, goal, STEPS, run_cases.WANTED, ROOM)
        if len(sheet) > LONG:
            answers = answers[: long < MOST_LONG]
            long += len(answers)
        for number, (line, records) in enumerate(answers):
            add(sheet, goal, records, len(line))
            if number == 0:
                add(sheet, goal, records, len(line) - 1)
            if len(sheet) + len(goal) + len(records) < SHORT:
                for other in (*damaged(records), *rearranged(records)):
                    add(sheet, goal, other, 99)


def damage(add):
    """A few answers with many records, each byte and each record damaged."""
    for sheet, goal in (
        (":-mode p(*). p(a). p(b).", "(p(X);X=c), X = Y, p(Y)."),
        (":-mode p(*,*). p(X,Y) :- (X=a,Y=b;q(Y),X=Y). :-mode q(*). q(c). q(f(Z)) :- (true;p(Z,Z)).", "p(X,Y), (q(X);Y=X)."),
        (":-mode plus(+,+,-). plus(z,N,N). plus(s(M),N,s(P)) :- plus(M,N,P).", "plus(s(s(z)),z,X)."),
        (":-mode q. q :- (fail;(true;fail)). q.", "q,q."),
    ):
        for _, records in workings.recorded(sheet.encode(), goal.encode(), 3_000, 3, ROOM):
            for other in (*damaged(records), *rearranged(records)):
                add(sheet, goal, other, 40)


def longest_paths(add):
    """253 to 256 records of kind 1, with every kind of record as the last or behind, and with brackets, which do not lengthen the path."""
    for count in range(253, 257):
        loops = clause_record(1) * count
        for behind in (b"", clause_record(1), clause_record(2), LEFT, RIGHT, b"\0", b"\1", b"\1\2", clause_record(3)):
            add(LOOP, "l.", loops + behind, 4)
        sided = (clause_record(1) + LEFT) * count
        for behind in (b"", clause_record(1), clause_record(1) + RIGHT, clause_record(2), RIGHT):
            add(SIDED, "l.", sided + behind, 4)
    add(LOOP, "l, l.", clause_record(1) * 253 + clause_record(2) * 2, 4)
    add(LOOP, "l, l.", clause_record(1) * 254 + clause_record(2) * 2, 4)


def clause_numbers(add):
    """Numbers around each bound and each byte as the high one, over sheets with 256, a few and no clauses; clauses of other predicates."""
    sheet = ":-mode p(*).:-mode q.q." + "".join("p(%d)." % n for n in range(2, 257))
    for number in (0, 1, 2, 128, 254, 255, 256, 257, 511, 512, 65_535):
        add(sheet, "p(X).", clause_record(number), 99)
    add(sheet, "q, p(X).", clause_record(1) + clause_record(256), 99)
    few = ":-mode p(*).:-mode p(*,*).p(a).p(a,b).p(f(X)):-p(X,X)."
    for number in range(300):
        add(few, "p(X).", clause_record(number), 99)
    for high in range(256):
        add(few, "p(X).", b"\1\1" + bytes([high]), 99)
    for number in range(3):
        add("", "true.", clause_record(number), 99)


def kinds(add):
    """Each byte as a kind, where a call, a bracket and nothing is left."""
    for byte in range(256):
        kind = bytes([byte])
        for goal in ("p(X).", "(p(X);X=c).", "X = c."):
            add(":-mode p(*). p(a).", goal, kind, 99)
            add(":-mode p(*). p(a).", goal, kind + b"\1\0", 99)


def nested_brackets(add):
    """Sixteen brackets, one in the other, on the left and on the right."""
    for depth in (1, 2, 15, 16, 17):
        for goal in ("(" * depth + "X=a" + ";X=b)" * depth + ".", "(X=b;" * depth + "X=a" + ")" * depth + "."):
            for records in (LEFT * depth, RIGHT * depth, LEFT * (depth - 1) + RIGHT, RIGHT * (depth - 1) + LEFT, LEFT * (depth - 1), LEFT * (depth + 1)):
                add("", goal, records, 99)
    for sides in product((LEFT, RIGHT, b""), repeat=4):
        add("", "((X=a;X=b);(X=c;X=d)),(Y=X;(Y=e;Y=f)).", b"".join(sides), 99)


def order(add):
    """The sheet's refusals, then the goal's, then 17, then 18; with room and with none."""
    good = ":-mode p(+). p(a)."
    for sheet, goal, records, room in product(
        (good, "p", ":-mode p(+).", ":-mode p(-). p(X).", "p.", good + "#", good * 2),
        ("p(a).", "p", "p(X).", "q.", "p(b).", "p(a);"),
        (b"", clause_record(1), clause_record(2), b"\1\1"),
        (0, 3, 4, 99),
    ):
        add(sheet, goal, records, room)
    for goal in ("p(a).", "p"):
        add(" " * 16_385, goal, clause_record(1), 99)
    for sheet in (good, "p"):
        add(sheet, " " * 1_025, clause_record(1), 99)


def rooms(add):
    """Lines at each room from none to one more than is needed, and long ones near what they need."""
    for goal in ("true.", "X = a.", "X = f(Y,Y), Z = Y.", "_ = a."):
        line = workings.check(b"", goal.encode(), b"", ROOM)
        for room in range(len(line) + 2):
            add("", goal, b"", room)
    for depth in (4, 8):
        goal = ", ".join("X%d = f(X%d,X%d)" % (n, n + 1, n + 1) for n in range(depth)) + "."
        size = len(workings.check(b"", goal.encode(), b"", 20_000))
        for room in (0, size - 1, size, size + 1):
            add("", goal, b"", room)


def long_workings(add):
    """Many bytes behind what is used up, or behind a record that does not fit."""
    for behind in (b"\1" * 5_000, LEFT * 5_000):
        add(":-mode p(*). p(a).", "p(X).", clause_record(1) + behind, 99)
        add("", "fail.", behind, 99)
        add("", "(true;fail).", behind, 99)
    add(":-mode p(*). p(a).", "p(X).", clause_record(1) + b"\0" * 19_000, 99)


def make(add):
    worked_examples(add)
    answers_of_runs(add)
    damage(add)
    longest_paths(add)
    clause_numbers(add)
    kinds(add)
    nested_brackets(add)
    order(add)
    rooms(add)
    long_workings(add)
