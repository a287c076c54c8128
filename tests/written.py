"""A clause for each declared predicate, so that a sheet is not refused with 16."""

import engine


def as_bytes(text):
    return text if isinstance(text, bytes) else text.encode()


def unwritten(sheet):
    """The declared predicates of a sheet, read, that no clause is of."""
    written = {engine.predicate_of(clause.head) for clause in sheet.clauses}
    declared = ((name, len(marks)) for name, marks, _ in sheet.declarations)
    return [predicate for predicate in declared if predicate not in written | {engine.SEEN}]


def fact(name, arguments):
    return name + (b"(" + b",".join([b"a"] * arguments) + b")" if arguments else b"") + b"."


def completed(text):
    """The sheet with a fact at its end for each predicate that 16 would name; what
    the checker says of it otherwise is the same."""
    text = as_bytes(text)
    answer = engine.check_sheet(text)
    if not isinstance(answer, engine.Refusal) or answer.number != 16:
        return text
    gap = b"\n" if b"%" in text.rpartition(b"\n")[2] else b""
    facts = [fact(*predicate) for predicate in unwritten(engine.parsed_sheet(text))]
    if len(engine.parsed_sheet(text).clauses) + len(facts) > engine.CLAUSES:
        return text
    return text + gap + b"".join(facts)


def completing(add, place):
    """An adder of cases that completes the sheet, which is at that place of the fields."""

    def completed_add(*fields, **settings):
        fields = list(fields)
        fields[place] = completed(fields[place])
        return add(*fields, **settings)

    return completed_add
