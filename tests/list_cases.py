"""Cases for a list of three entries that is lent: sheets that are read and
checked, with fewer, as many and more declarations.  And searches for a
predicate in any list of entries of a text."""

import engine
import examples
import random_sheets
import read_cases
import written

SEED = 1_723
HELD = [(20_001, 41, 11), (20_002, 42, 12), (20_003, 43, 13)]  # entries that no sheet has
FAULTS = [
    b"!", b":", b"\xe9", read_cases.LONG, b"p(", b"p(.", b":- mode", b":- mode p(+", b"(",
    read_cases.nested(b"p", 17) + b".", b"p(" + examples.EIGHT + b"a).",
    b":- mode p(" + examples.EIGHT_MARKS + b"+).", b":- mode n0.", b":- mode n2(+,-).",
    b":- mode true.", b":- mode fail.", b"p.", b"n0(a).", b"n0 :- p.", b"n0 :- n1(X).",
    b"n0 :- n2(a,X), n2(X,a).", b"n2(a,X).", b"n2(X,Y) :- n2(X,Z).", b":- mode p. p :- n3(a,X,X).",
    b";", b"n0 :- (n0;n1(X)).", b"n2(X,Y) :- (Y = a;true).",
]


def marks(count):
    return [b"+-*"[n % 3 : n % 3 + 1] for n in range(count)]


def declared(name, count, gap=b" "):
    listed = b"(" + read_cases.listed(marks(count)) + b")" if count else b""
    return b":-" + gap + b"mode" + gap + name + listed + b"."


def modes(numbers, gap=b" "):
    """Predicates n0, n1 and on, whose numbers of arguments go up to 8."""
    return [declared(b"n%d" % n, n % 9, gap) for n in numbers]


def numbers_of_declarations(add):
    for count in range(67):
        add(b"".join(modes(range(count), b"\t")))
        add(b"".join(declared(b"p%d" % n, 0) + b" p%d." % n for n in range(count)))
        if count < 6 or count > 62:
            add(b" % :- mode q.\n".join(modes(range(count)) + [b""]))
            add(b"".join(declared((b"n%d" % n).ljust(31, b"_"), 8) for n in range(count)))
    for count in (63, 64, 65):
        for first in (b"q.", b"q. " * 256, b"q. " * 257, b"%" * 200 + b"\n", b"\n" * 2_000):
            add(first + b"".join(modes(range(count))))
    add(b":- mode true(+). :- mode fail(-). :- mode mode. :- mode mode(*).")


def names_and_arguments(add):
    """Each of four declarations by turns with each size of name and number of arguments."""
    for place in range(4):
        lines = modes(range(4))
        for size in (1, 2, 15, 30, 31, 32, 64):
            add(b"\n".join(lines[:place] + [declared(b"w" * size, 2)] + lines[place + 1 :]))
        for count in range(11):
            add(b"\r\n".join(lines[:place] + [declared(b"w", count)] + lines[place + 1 :]))
        for gap in read_cases.GAPS:
            gaps = [declared(b"w", 3, gap)] * (place < 3)
            add(gap.join([b""] + lines[:place] + gaps + lines[place + 1 :] + [b"n0.", b""]))


def refusals(add):
    for count in range(6):
        for fault in FAULTS:
            lines = modes(range(count))
            add(b" ".join(lines + [fault]))
            add(b" ".join([fault] + lines))
            add(b" ".join(lines[:2] + [fault] + lines[2:]))
    whole = written.completed(b"".join(modes(range(4))))
    for size in (16_384, 16_385):
        add(b"\n" * (size - len(whole)) + whole)


def worked_examples(add):
    for sheet, _ in examples.CHECKS:
        add(sheet, as_it_stands=True)
    for *_, sheet, _, _ in examples.RUNS + examples.SETTINGS + examples.STORED:
        add(sheet, as_it_stands=True)


def by_chance(add, rng):
    for n in range(120):
        lines, _ = random_sheets.well_marked_sheet(rng)
        add("\n".join(lines).encode())
        rng.shuffle(lines)
        add("\n".join(random_sheets.damaged(rng, lines)).encode())
        lines, _ = random_sheets.chance_sheet(rng)
        rng.shuffle(lines)
        add("\n".join(lines).encode(), as_it_stands=n % 10 == 0)
    for _ in range(160):
        tokens = sum(([b":-", b"mode", b"m%d" % n, b"."] for n in range(rng.randint(0, 3))), [])
        tokens += read_cases.random_text(rng, "S")
        add(read_cases.spelt(rng, tokens))
        add(read_cases.damaged_bytes(rng, read_cases.spelt(rng, tokens)))


def make(add, rng):
    worked_examples(add)
    numbers_of_declarations(add)
    names_and_arguments(add)
    refusals(add)
    by_chance(add, rng)


LARGEST = 2**32 - 1
LETTERS = bytes(range(33, 99))  # 66 names of one byte


def words_of(entries):
    """The words of a list; each entry's fourth word is its place, which no search looks at."""
    return [word for place, entry in enumerate(entries) for word in (*entry, place)]


def lists_of_all_sizes(add):
    """Lists of 0 to 65 entries: the last found; in some one missing, and words left over."""
    for count in range(66):
        words = words_of([(place, 1, place % 9) for place in range(count)])
        last = max(count - 1, 0)
        add(LETTERS, words, LETTERS[last : last + 1], last % 9)
        if count < 6 or count > 63:
            add(LETTERS, words, b"~", 0)
        if count < 6:
            add(LETTERS, words, LETTERS[last : last + 1], last % 9 + 1)
            for left in (1, 2, 3):
                add(LETTERS, words + [65, 1, 2][:left], LETTERS[65:], 2)


def places_of_the_match(add):
    for count in (1, 2, 3, 4, 8):
        words = words_of([(place, 1, 1) for place in range(count)])
        for place in range(count):
            add(LETTERS, words, LETTERS[place : place + 1], 1)
    words = words_of([(place, 1, 1) for place in range(64)])
    for place in (0, 31, 62, 63):
        add(LETTERS, words, LETTERS[place : place + 1], 1)


def repeated_entries(add):
    text = b"pq"
    for count in range(1, 6):
        for chosen in range(2**count):
            entries = [(chosen >> place & 1, 1, 2) for place in range(count)]
            add(text, words_of(entries), b"p", 2)
    add(b"abcab", words_of([(0, 2, 1), (3, 2, 1)]), b"ab", 1)
    add(b"abcab", words_of([(3, 2, 1), (0, 2, 1)]), b"ab", 1)
    add(b"abcab", words_of([(1, 2, 1), (3, 2, 1)]), b"ab", 1)


def other_numbers_of_arguments(add):
    for arguments in (0, 1, 2, 7, 8, 9, 255, 65_536, LARGEST):
        entries = [(0, 1, 0), (0, 1, 8), (0, 1, LARGEST), (0, 1, 1), (0, 1, 65_536)]
        add(b"p", words_of(entries), b"p", arguments)


def lengths_of_names(add):
    text = b"a" * 40
    for size in (0, 1, 2, 30, 31, 32, 39, 40):
        entries = [(0, length, 1) for length in (41, 40, 32, 31, 30, 1, 0)]
        add(text, words_of(entries), b"a" * size, 1)
        add(text, words_of(entries), b"a" * (size - 1) + b"b" if size else b"", 2)
        add(text[:31], words_of(entries), b"a" * size, 1)
        add(b"", words_of(entries), b"a" * size, 1)


def bytes_that_differ(add):
    """Names of one length with one byte another, at each place; the entry behind matches."""
    for size in (1, 2, 3, 31):
        for place in range(size):
            name = bytes(97 + n % 26 for n in range(size))
            other = name[:place] + b"_" + name[place + 1 :]
            add(other + name, words_of([(0, size, 3), (size, size, 3)]), name, 3)


def ends_of_the_text(add):
    """Entries that reach up to, to and past the end of a text, by a little and by far."""
    text = b"ccabab"
    far = [5, 6, 7, 2**31, LARGEST - 1, LARGEST]
    for name in (b"", b"b", b"ab"):
        for byte in (0, 2, 4, *far):
            for length in (0, 1, 2, 4, 7, LARGEST):
                add(text, words_of([(byte, length, 1), (4, 2, 1)]), name, 1)
    add(text, words_of([(LARGEST, 1, 1), (5, 1, 1)]), b"b", 1)


def entries_of_sheets(add):
    """Each predicate of a sheet, by its own entries."""
    sheet = b"".join(modes(range(7)))
    entries = [tuple(engine.read_entry(sheet, number)) for number in range(7)]
    for number in range(8):
        for arguments in (number, number + 1):
            add(sheet, words_of(entries), b"n%d" % number, arguments)


def searches_by_chance(add, rng):
    for _ in range(160):
        text = bytes(rng.choices(b"ab", k=rng.randint(0, 9)))
        entries = [
            (rng.randint(0, len(text) + 1), rng.randint(0, 3), rng.randint(0, 1))
            for _ in range(rng.randint(0, 7))
        ]
        words = words_of(entries) + [0] * rng.choice([0, 0, 1, 2, 3])
        add(text, words, bytes(rng.choices(b"ab", k=rng.randint(0, 3))), rng.randint(0, 1))


def make_searches(add, rng):
    lists_of_all_sizes(add)
    places_of_the_match(add)
    repeated_entries(add)
    other_numbers_of_arguments(add)
    lengths_of_names(add)
    bytes_that_differ(add)
    ends_of_the_text(add)
    entries_of_sheets(add)
    searches_by_chance(add, rng)
