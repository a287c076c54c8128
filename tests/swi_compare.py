"""Compares answers and their order with SWI-Prolog under the occurs check.

Random accepted sheets and goals whose run ends `done` are put to both, and goals
with variables that are met only beside compound terms; each answer is printed by
both as an answer line, so that unbound variables have the same names.  Exit status
1 if any differ.
"""

import random
import subprocess
import sys
import tempfile
from pathlib import Path

import engine
import random_sheets

SEED, TRIES, MIXED = 1_972, 12_000, 2_000
ALLOWANCE, WANTED, ROOM = 5_000, 64, 1_000_000

PRELUDE = """\
:- set_prolog_flag(occurs_check, true).
:- style_check(-singleton).
:- style_check(-discontiguous).
:- dynamic(goal/2).
answers(Number) :- forall(goal(Number, Pairs), line(Pairs)), format("end~n").
line([]) :- !, format("yes~n").
line(Pairs) :-
    term_variables(Pairs, Variables), numbered(Variables, 1),
    pairs(Pairs, ""), nl.
numbered([], _).
numbered([Name|Rest], N) :- atom_concat('_', N, Name), M is N + 1, numbered(Rest, M).
pairs([], _).
pairs([Name-Term|Rest], Comma) :-
    format("~w~w = ", [Comma, Name]), write_term(Term, [ignore_ops(true)]), pairs(Rest, ", ").
main :- forall(goal_number(Number), answers(Number)).
variables(_).
:- discontiguous(goal_number/1).
"""


def prolog_term(term):
    if isinstance(term, engine.Variable):
        return "V%d" % term.number
    name = "'%s'" % term.name.decode()
    return random_sheets.atom(name, list(map(prolog_term, term.arguments)))


def prolog_atom(number, atom):
    """Predicates are named apart from those of other sheets and the system's."""
    return prolog_term(engine.Compound(b"%d:%s" % (number, atom.name), atom.arguments))


def prolog_literal(number, literal):
    if isinstance(literal, engine.Either):
        sides = (", ".join(prolog_literal(number, one) for one in side) for side in literal)
        return "(%s)" % "; ".join(sides)
    if isinstance(literal, engine.Equation):
        return " = ".join(map(prolog_term, literal))
    if engine.is_call(literal):
        return prolog_atom(number, literal)
    return literal.name.decode()


def prolog_body(number, clause):
    """SWI-Prolog 9.0.4 misses the occurs check on arguments that are fresh
    variables of the caller's frame; in a term first, they are no such variables."""
    names = ["V%d" % number for number in range(len(clause.variables))]
    first = "variables(%s)" % random_sheets.atom("v", names)
    return ", ".join([first, *(prolog_literal(number, literal) for literal in clause.body)])


def prolog_program(number, sheet, goal):
    lines = ["goal_number(%d)." % number]
    for name, marks, _ in sheet.declarations:
        lines.append(":- dynamic('%d:%s'/%d)." % (number, name.decode(), len(marks)))
    for clause in sheet.clauses:
        head = prolog_atom(number, clause.head)
        lines.append("%s :- %s." % (head, prolog_body(number, clause)))
    pairs = ["'%s'-V%d" % (name.decode(), at)
             for at, name in enumerate(goal.variables) if name != b"_"]
    lines.append("goal(%d, [%s]) :- %s." % (number, ", ".join(pairs), prolog_body(number, goal)))
    return "\n".join(lines) + "\n"


def main():
    rng = random.Random(SEED)
    trials, programs, several = [], [PRELUDE], 0
    for number in range(TRIES):
        sheet, goal = (text.encode() for text in random_sheets.runnable(rng))
        report = engine.run(sheet, goal, ALLOWANCE, WANTED, ROOM, stored=True)
        if report.kind == "done" and (report.answers > 1 or rng.random() < 0.2):
            trials.append((sheet, goal, report.text.decode()))
            several += report.answers > 1
            programs.append(
                prolog_program(number, engine.parsed_sheet(sheet), engine.parsed_goal(goal))
            )
    rng = random.Random(SEED + 1)
    for number in range(TRIES, TRIES + MIXED):
        sheet, goal = (text.encode() for text in random_sheets.mixed_pairs(rng))
        report = engine.run(sheet, goal, ALLOWANCE, WANTED, ROOM)
        trials.append((sheet, goal, report.text.decode()))
        programs.append(prolog_program(number, engine.parsed_sheet(sheet), engine.parsed_goal(goal)))
    with tempfile.TemporaryDirectory() as directory:
        program = Path(directory) / "program.pl"
        program.write_text("".join(programs))
        command = ["swipl", "-q", "-f", "none", "-g", "main", "-t", "halt", str(program)]
        output = subprocess.run(command, capture_output=True, text=True, check=True).stdout
    theirs = output.split("end\n")
    assert len(theirs) == len(trials) + 1, "SWI-Prolog did not answer each goal"
    differ = [trial for trial, text in zip(trials, theirs) if trial[2] != text]
    for sheet, goal, ours in differ[:3]:
        print("differs:\n%s\n?- %s\n%s" % (sheet.decode(), goal.decode(), ours))
    brackets = sum(b";" in sheet + goal for sheet, goal, _ in trials)
    print("%d tried, %d with several answers, %d with brackets" % (len(trials), several, brackets))
    print("%d differ" % len(differ))
    return bool(differ)


if __name__ == "__main__":
    sys.exit(main())
