"""Writes the files of cases that crates/engine_cases reads, and what it must write.

python3 tests/make_cases.py read|check|run|list|trace|determinacy|format|workings

The cases of a kind are the file of its name in crates/engine_cases/data.  Their outputs
are a part of crates/engine_cases/stdout, which has the kinds in this order; the file
parts beside it says how many bytes are each one's.  The other kinds stay as they are.

First the engine is held to the worked examples (test_engine.py); where it fails
one, nothing is written.  A case is a letter and its fields; a text is its length
in 3 bytes, lowest first, then its bytes.  The cases come from fixed seeds: each
call writes the same files.
"""

import random
import sys
from collections import Counter
from pathlib import Path

import check_cases
import determinacy_cases
import engine
import format_cases
import list_cases
import read_cases
import run_cases
import test_engine
import trace_cases
import workings
import workings_cases
import written

CRATE = Path(__file__).resolve().parent.parent / "crates" / "engine_cases"
MOST_BYTES, MOST_TEXT = 1_000_000, 20_000
COUNTED_STEPS = 1_000  # steps over which both counts of demand 3 are taken


class CaseFile:
    """Cases without repetition, with the engine's output for each."""

    def __init__(self):
        self.outputs = {}

    def add(self, record, answer):
        self.add_printed(record, engine.printed(answer))

    def add_printed(self, record, output):
        self.outputs.setdefault(record, output)

    def write(self, stage):
        cases, parts = b"".join(self.outputs), output_parts()
        assert len(cases) < MOST_BYTES, len(cases)
        parts[stage] = b"".join(self.outputs.values())
        (CRATE / "data" / stage).write_bytes(cases)
        (CRATE / "stdout").write_bytes(b"".join(parts.values()))
        (CRATE / "parts").write_text("".join("%s %d\n" % (name, len(part)) for name, part in parts.items()))


def output_parts():
    """The output of each kind of cases, as the files have it."""
    output, parts, at = (CRATE / "stdout").read_bytes(), {}, 0
    for line in (CRATE / "parts").read_text().splitlines():
        stage, size = line.split()
        parts[stage], at = output[at : at + int(size)], at + int(size)
    assert list(parts) == list(STAGES)[: len(parts)] and at == len(output), "stdout is not as parts says"
    return parts


def as_bytes(text):
    return text if isinstance(text, bytes) else text.encode()


def number_field(number, size):
    return number.to_bytes(size, "little")


def text_field(text):
    assert len(text) < MOST_TEXT
    return number_field(len(text), 3) + text


def make_read(cases):
    readers = {"S": engine.read_sheet, "G": engine.read_goal}

    def add(letter, text):
        cases.add(letter.encode() + text_field(text), readers[letter](text))

    def add_entry(number, text):
        cases.add(b"E" + bytes([number]) + text_field(text), engine.read_entry(text, number))

    read_cases.make(add, random.Random(read_cases.SEED))
    read_cases.make_entries(add_entry)

    def add_token(number, text):
        cases.add(b"T" + bytes([number]) + text_field(text), engine.read_token(text, number))

    read_cases.make_tokens(add_token)


def make_check(cases):
    checkers = {"C": engine.check_sheet, "K": engine.check_goal}

    def add(letter, *texts):
        texts = list(map(as_bytes, texts))
        record = letter.encode() + b"".join(map(text_field, texts))
        cases.add(record, checkers[letter](*texts))

    check_cases.make(add, random.Random(check_cases.SEED))


class Runs:
    """Runs as cases, and both counts of each zero."""

    def __init__(self, cases):
        self.cases, self.reports, self.counted, self.allowed = cases, {}, set(), {}

    def add(self, letter, texts, trace, allowance, wanted, room, stored):
        sizes = (allowance, 3), (wanted, 2), (room, 3), (stored, 1)
        record = letter + b"".join([*(number_field(*field) for field in sizes), *map(text_field, texts)])
        if trace is not None:
            record += text_field(trace)
        given = trace or b""
        if record not in self.reports:
            self.reports[record] = engine.run(*texts, allowance, wanted, room, stored, given)
            self.cases.add(record, self.reports[record])
            if 1 <= allowance <= engine.MOST_ALLOWED:
                self.allowed.setdefault((texts, given, wanted, room, stored), {})[allowance] = self.reports[record]
        if isinstance(self.reports[record], engine.Report) and (*texts, given) not in self.counted:
            self.counted.add((*texts, given))
            inputs, outputs, _ = engine.open_counts(*texts, COUNTED_STEPS, given)
            assert inputs == outputs == 0, texts
        return self.reports[record]

    def same_beginnings(self):
        """Holds all cases that differ in the allowance alone to REQUESTS (xiii), and prints how many they are."""
        several = [sorted(answers.items()) for answers in self.allowed.values() if len(answers) > 1]
        for answers in several:
            for (_, fewer), (_, more) in zip(answers, answers[1:]):
                if isinstance(fewer, engine.Report) and fewer.kind == "steps":
                    assert more.text.startswith(fewer.text), (fewer, more)
                else:
                    assert more == fewer, (fewer, more)
        counts = len(several), sum(map(every_one, several)), sum(map(len, several))
        print("%d runs at several allowances, %d of them at every one from 1 to the end: %d cases" % counts)


def every_one(answers):
    """These are a run's reports at every allowance from 1 to the first at which it ends otherwise than by `steps`."""
    for expected, (allowance, answer) in enumerate(answers, 1):
        if allowance != expected or isinstance(answer, engine.Refusal):
            return False
        if answer.kind != "steps":
            return True
    return False


def make_run(cases):
    runs = Runs(cases)

    def add(
        sheet, goal,
        allowance=run_cases.ALLOWANCE, wanted=run_cases.WANTED, room=run_cases.ROOM, stored=False,
    ):
        return runs.add(b"R", (as_bytes(sheet), as_bytes(goal)), None, allowance, wanted, room, stored)

    run_cases.make(add, random.Random(run_cases.SEED))
    runs.same_beginnings()


def make_trace(cases):
    runs = Runs(cases)

    def add(
        sheet, goal, trace,
        allowance=trace_cases.ALLOWANCE, wanted=trace_cases.WANTED, room=trace_cases.ROOM, stored=False,
    ):
        return runs.add(b"T", (as_bytes(sheet), as_bytes(goal)), trace, allowance, wanted, room, stored)

    trace_cases.make(add, random.Random(trace_cases.SEED))
    runs.same_beginnings()


def make_list(cases):
    def add(sheet, as_it_stands=False):
        """Read, and checked with a clause for each predicate or as it stands."""
        checked = sheet if as_it_stands else written.completed(sheet)
        cases.add(b"L" + text_field(sheet), engine.read_lent(sheet, list_cases.HELD))
        cases.add(b"M" + text_field(checked), engine.check_lent(checked, list_cases.HELD))

    def add_search(text, words, name, arguments):
        lent = b"".join(number_field(word, 4) for word in [arguments, *words])
        record = b"F" + b"".join(map(text_field, (lent, name, text)))
        cases.add(record, engine.look_up(text, words, name, arguments))

    list_cases.make(add, random.Random(list_cases.SEED))
    list_cases.make_searches(add_search, random.Random(list_cases.SEED + 1))


def make_determinacy(cases):
    def add(sheet):
        sheet = as_bytes(sheet)
        cases.add(b"D" + text_field(sheet), engine.determinate(sheet))

    determinacy_cases.make(add, random.Random(determinacy_cases.SEED))
    determinacy_cases.at_most_one_line(random.Random(determinacy_cases.SEED + 1), 1_000)


def make_format(cases):
    def add(sheet, room):
        sheet = as_bytes(sheet)
        cases.add(b"W" + number_field(room, 3) + text_field(sheet), engine.buffer_after(sheet, room))

    format_cases.make(add, random.Random(format_cases.SEED))
    format_cases.equal_exactly(random.Random(format_cases.SEED + 1), 4_000)


def make_workings(cases):
    def add(sheet, goal, records, room):
        sheet, goal = as_bytes(sheet), as_bytes(goal)
        record = b"V" + number_field(room, 3) + b"".join(map(text_field, (sheet, goal, records)))
        cases.add_printed(record, workings.text_after(sheet, goal, records, room))

    workings_cases.make(add)


# in the order of the program
STAGES = {
    "read": make_read, "check": make_check, "run": make_run, "list": make_list, "trace": make_trace,
    "determinacy": make_determinacy, "format": make_format, "workings": make_workings,
}


def kind_of(output):
    """accepted, refused with text and number, or end with its kind; a list's lines begin with no word; of a sheet written afresh, same; of workings, answer or the refusal."""
    words = [line for line in output.decode().splitlines() if line[0].isalpha()][-1].split()
    if "=" in words:
        return "answer"
    return " ".join(words[: {"refused": 3, "end": 2}.get(words[0], 1)])


def main(stage):
    cases = CaseFile()
    STAGES[stage](cases)
    cases.write(stage)
    print("%d cases, %d bytes" % (len(cases.outputs), sum(map(len, cases.outputs))))
    for kind, count in sorted(Counter(map(kind_of, cases.outputs.values())).items()):
        print("%6d %s" % (count, kind))


if __name__ == "__main__":
    if len(sys.argv) != 2 or sys.argv[1] not in STAGES:
        sys.exit("usage: make_cases.py " + "|".join(STAGES))
    if not test_engine.run():
        sys.exit("the engine fails a worked example: no case is written")
    main(sys.argv[1])
