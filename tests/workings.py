"""Workings of REQUESTS (xi): a recorder, which gives those of the answers of a run, and a
checker, which shares with the engine's runs reading and checking, the copies of
clauses and bodies, unification and the line; the replay and its bytes are its own."""

import engine
from engine import Either, Equation, LogicVariable, Refusal

CLAUSE, LEFT, RIGHT = b"\x01", b"\x02", b"\x03"  # kinds of record


def clause_record(number):
    return CLAUSE + number.to_bytes(2, "little")


def both_checked(sheet_text, goal_text):
    """Sheet and goal, both accepted; or the Refusal."""
    sheet = engine.answer_of("sheet", lambda: engine.checked_sheet(sheet_text))
    if isinstance(sheet, Refusal):
        return sheet
    goal = engine.answer_of("goal", lambda: engine.checked_goal(sheet, goal_text))
    return goal if isinstance(goal, Refusal) else (sheet, goal)


# ---------------------------------------------------------------- recording


class Recorder(engine.Machine):
    """The machine of a run, beside each alternative the records that lead to it."""

    def __init__(self, sheet, goal):
        super().__init__(sheet, goal)
        self.numbers = {id(clause): number for number, clause in enumerate(sheet.clauses, 1)}
        self.records = [b""]

    def drop(self):
        self.records.pop()
        super().drop()

    def step_either(self, top, bracket, copy, rest):
        super().step_either(top, bracket, copy, rest)
        led = self.records.pop()
        self.records += [led + RIGHT, led + LEFT]

    def step_call(self, top):
        clause, height = self.further_clause(), len(self.pile)
        super().step_call(top)
        if len(self.pile) > height:
            self.records.append(self.records[-1] + clause_record(self.numbers[id(clause)]))


def recorded(sheet_text, goal_text, allowance, wanted, room):
    """Line and workings of each answer of a run without a trace and without a mark; none where it is refused."""
    checked = both_checked(sheet_text, goal_text)
    if isinstance(checked, Refusal):
        return []
    machine, answers, size = Recorder(*checked), [], 0
    for _ in range(allowance):
        if not machine.pile or len(answers) == wanted:
            break
        if machine.pile[-1].literals is None:
            line = engine.answer_line(machine.goal_variables, room - size)
            if line is None:
                break
            answers.append((line, machine.records[-1]))
            size += len(line)
        elif machine.pile[-1].path == engine.MOST_PATH and machine.further_clause():
            break
        machine.step()
    return answers


def split(workings):
    """The records of some workings that are whole."""
    records, at = [], 0
    while at < len(workings):
        size = 3 if workings[at] == CLAUSE[0] else 1
        records.append(workings[at : at + size])
        at += size
    return records


# ---------------------------------------------------------------- checking


def gone_through(literals):
    """What is left from the next call or bracket on; False where an equation or `fail` stands in the way."""
    while literals and not isinstance(literals[0], Either) and not engine.is_call(literals[0]):
        literal, _, literals = literals
        if isinstance(literal, Equation):
            if not engine.unify(*literal, []):
                return False
        elif engine.predicate_of(literal) == engine.FAIL:
            return False
    return literals


def taken(sheet, literals, path, record):
    """What a record leaves of the literals, the first a call or a bracket; False where it does not fit."""
    literal, _, rest = literals
    if isinstance(literal, Either):
        sides = {LEFT: literal.left, RIGHT: literal.right}
        return engine.before(sides[record], None, rest) if record in sides else False
    if record[:1] != CLAUSE or len(record) < 3 or path == engine.MOST_PATH:
        return False
    number = int.from_bytes(record[1:], "little")
    if not 1 <= number <= len(sheet.clauses):
        return False
    clause = sheet.clauses[number - 1]
    fresh = [LogicVariable() for _ in clause.variables]
    if not engine.unify(literal, engine.instance(clause.head, fresh), []):
        return False
    return engine.body_literals(clause, fresh, None, rest)


def check(sheet_text, goal_text, workings, room):
    """The answer's line with its line feed, or the Refusal."""
    checked = both_checked(sheet_text, goal_text)
    if isinstance(checked, Refusal):
        return checked
    sheet, goal = checked
    variables = [LogicVariable() for _ in goal.variables]
    left, path, used = gone_through(engine.body_literals(goal, variables, None, None)), 0, 0
    while left:
        record = workings[used : used + (3 if workings[used : used + 1] == CLAUSE else 1)]
        left = taken(sheet, left, path, record)
        if left is not False:
            left = gone_through(left)
        if left is not False:
            path += record[:1] == CLAUSE
            used += len(record)
    if left is False or used < len(workings):
        return Refusal("workings", 17, used, 0, 0, 0, b"")
    line = engine.answer_line(list(zip(goal.variables, variables)), room)
    return Refusal("", 18, 0, 0, 0, 0, b"") if line is None else line


def text_after(sheet_text, goal_text, workings, room):
    """What crates/engine_cases prints: the bytes behind the line, and the line; or all of the room, and the refusal."""
    answer = check(sheet_text, goal_text, workings, room)
    line = b"" if isinstance(answer, Refusal) else answer
    return b"kept %d\n" % (room - len(line)) + (line or engine.printed(answer))
