"""Sheets and goals by chance: well marked, damaged, and without regard to marks."""

import re

CONSTANTS = ["a", "b", "c", "z", "0", "1"]
FUNCTORS = [("s", 1), ("s", 1), ("f", 2), ("g", 1)]
NAMES = "pqrtuvwxy"
MARKS = "+-*"
BRACKETS = 3  # the most in a clause or goal, so that its literals stay within the limit


def atom(name, arguments):
    return name + "(" + ",".join(arguments) + ")" if arguments else name


def bracket(left, right):
    """A bracket of two bodies; without blanks behind its commas, so that a body can be taken apart by them."""
    return "(" + ",".join(left) + ";" + ",".join(right) + ")"


def clause_text(head, body):
    return (head + " :- " + ", ".join(body) if body else head) + "."


def random_term(rng, depth, variable, share=0.5):
    """A term; variable() gives a variable's name or None where there is none."""
    name = variable() if rng.random() < share else None
    if name:
        return name
    if depth and rng.random() < 0.3:
        name, arity = rng.choice(FUNCTORS)
        return atom(name, [random_term(rng, depth - 1, variable, share) for _ in range(arity)])
    return rng.choice(CONSTANTS[:3] if rng.random() < 0.8 else CONSTANTS)


class ClauseMaker:
    """Makes the parts of one clause or goal and keeps what the marks let it know:
    each variable is ground or open, as the mode rules tell."""

    def __init__(self, rng):
        self.rng = rng
        self.ground, self.open, self.made = [], [], 0
        self.brackets = BRACKETS

    def term(self, *choices, depth=2, share=0.5):
        """A term and its variables; each variable comes from one of the choices."""
        used = []

        def variable():
            source = self.rng.choice(choices)
            if source == "blank":
                return "_"
            if source == "new" and self.made < 20:
                self.made += 1
                name = "XYZUVWABCDEFGHIJKLMN"[self.made - 1]
                self.open.append(name)
            else:
                names = self.ground if source == "ground" else self.open
                name = self.rng.choice(names) if names else None
            if name:
                used.append(name)
            return name

        return random_term(self.rng, depth, variable, share), used

    def become_ground(self, names):
        for name in names:
            if name in self.open:
                self.open.remove(name)
                self.ground = self.ground + [name]

    def call(self, choices):
        name, marks = self.rng.choice(choices)
        arguments, given = [], []
        for mark in marks:
            if mark == "+":
                argument, _ = self.term("ground", depth=1, share=0.8)
            elif mark == "-":
                argument, names = self.term(
                    "new", "new", "new", "new", "open", "ground", "blank", depth=1, share=0.85
                )
                given += names
            else:
                argument, _ = self.term("new", "new", "open", "ground", "blank", share=0.7)
            arguments.append(argument)
        self.become_ground(given)
        return atom(name, arguments)

    def equation(self):
        kind = self.rng.choice("gggoocp")
        if kind == "g":  # one side ground, so both become so
            left, names = self.term("new", "open", depth=0)
            right, _ = self.term("ground")
            self.become_ground(names)
        elif kind == "o":  # nothing is taken as known
            left, _ = self.term("new", "open", depth=0)
            right, _ = self.term("new", "open", "blank", depth=1)
            if not left[0].isupper() or not self.open:
                return "true"
        elif kind == "c":  # argument pairs
            one, names = self.term("new", "open", "ground", depth=0)
            two, _ = self.term("ground", depth=1)
            three, more = self.term("new", "open", depth=0)
            left = "f(%s,%s)" % (one, three)
            right = "f(%s,%s)" % (two, self.rng.choice(CONSTANTS))
            self.become_ground(names + more)
        else:  # both sides ground
            left, _ = self.term("ground", depth=1)
            right = left if self.rng.random() < 0.5 else self.term("ground", depth=1)[0]
        return self.rng.choice((left + " = " + right, right + " = " + left))

    def now_ground(self, ground):
        """These are known ground, all others are not."""
        met = self.ground + self.open
        self.ground = [name for name in met if name in ground]
        self.open = [name for name in met if name not in ground]

    def side(self, choices):
        return self.literals(self.rng.choice((1, 1, 2)), choices)

    def either(self, choices):
        """Both sides go on from what is known before; known after is what both leave."""
        self.brackets -= 1
        before = self.ground
        left = self.side(choices)
        after = self.ground
        self.now_ground(before)
        right = self.side(choices)
        self.now_ground([name for name in self.ground if name in after])
        return bracket(left, right)

    def literals(self, count, choices):
        made = []
        for _ in range(count):
            if self.brackets and self.rng.random() < 0.15:
                made.append(self.either(choices))
                continue
            chance = self.rng.random()
            if choices and chance < 0.72:
                made.append(self.call(choices))
            elif chance < 0.95:
                made.append(self.equation())
            elif chance < 0.985:
                made.append("true")
            else:
                made.append("fail")
        return made

    def clause(self, predicate, count, choices):
        """A clause for the predicate with so many literals, calling the choices."""
        name, marks = predicate
        arguments = [None] * len(marks)
        for place, mark in enumerate(marks):
            if mark == "+":
                arguments[place], names = self.term("new", "new", "new", "ground", "blank", depth=1)
                self.become_ground(names)
            elif mark == "*":
                arguments[place], _ = self.term("new", "open", "ground", "blank", depth=1)
        body = self.literals(count, choices)
        for place, mark in enumerate(marks):
            if mark == "-":
                arguments[place], _ = self.term("ground", depth=1)
        return clause_text(atom(name, arguments), body)


def random_predicates(rng, marks="+--*"):
    count = rng.choice((1, 2, 2, 3, 3, 4))
    predicates = []
    for name in NAMES[:count]:
        arity = rng.choice((0, 1, 1, 2, 2, 2, 3, 3, 4))
        predicates.append((name, "".join(rng.choice(marks) for _ in range(arity))))
    return predicates


def declarations(predicates):
    return [":- mode " + atom(name, list(marks)) + "." for name, marks in predicates]


def recursion(rng, predicate):
    """Clauses that go down one + argument, or build up one - argument."""
    name, marks = predicate
    place = marks.index("+") if "+" in marks else marks.index("-")
    base, step, below = [], [], []
    for at, mark in enumerate(marks):
        if at == place:
            arguments = "z", "s(N)", "N"
        elif mark == "-":
            grown = rng.choice(("s(Q%d)", "f(Q%d,a)", "Q%d")) % at
            arguments = rng.choice(CONSTANTS[:4]), grown, "Q%d" % at
        else:
            arguments = rng.choice("_ab") if mark == "+" else "_", "R%d" % at, "R%d" % at
        for atom_arguments, argument in zip((base, step, below), arguments):
            atom_arguments.append(argument)
    clauses = [clause_text(atom(name, base), []),
               clause_text(atom(name, step), [atom(name, below)])]
    if rng.random() < 0.2:
        clauses.reverse()
    return clauses


def well_marked_sheet(rng):
    """Lines of a sheet that the mode rules accept, and its predicates."""
    predicates = random_predicates(rng)
    lines = []
    for number, predicate in enumerate(predicates):
        if rng.random() < 0.2 and set(predicate[1]) & set("+-"):
            lines += recursion(rng, predicate)
            continue
        choices = predicates[:number]
        if rng.random() < 0.1:
            choices = predicates
        for _ in range(rng.choice((0, 1, 2, 2, 3, 3, 4)) if number else rng.choice((2, 3, 4))):
            count = rng.choice((0, 0, 1, 2, 3)) if choices else rng.choice((0, 0, 0, 1))
            lines.append(ClauseMaker(rng).clause(predicate, count, choices))
    return declarations(predicates) + lines, predicates


def well_marked_goal(rng, predicates):
    choices = predicates[-2:] if rng.random() < 0.8 else predicates
    count = rng.choice((1, 1, 1, 2, 2, 3))
    return ", ".join(ClauseMaker(rng).literals(count, choices)) + "."


def chance_atom(rng, predicates):
    name, marks = rng.choice(predicates)
    names = ["X", "Y", "Z", "_"]
    return atom(name, [random_term(rng, 1, lambda: rng.choice(names)) for _ in marks])


def chance_literals(rng, predicates, most=4):
    made = []
    for _ in range(rng.randint(1, most)):
        chance = rng.random()
        if most == 4 and rng.random() < 0.12:
            made.append(bracket(*(chance_literals(rng, predicates, most=2) for _ in range(2))))
        elif chance < 0.65:
            made.append(chance_atom(rng, predicates))
        elif chance < 0.9:
            sides = [random_term(rng, 2, lambda: rng.choice("XYZ")) for _ in range(2)]
            made.append(" = ".join(sides))
        else:
            made.append(rng.choice(("true", "true", "fail")))
    return made


def chance_goal(rng, predicates):
    return ", ".join(chance_literals(rng, predicates)) + "."


def chance_sheet(rng, marks="+--*", facts=0.25, most_clauses=4):
    """Lines of a sheet made without regard to the marks, and its predicates."""
    predicates = random_predicates(rng, marks)
    lines = []
    for _ in range(rng.randint(1, most_clauses)):
        body = [] if rng.random() < facts else chance_literals(rng, predicates)
        lines.append(clause_text(chance_atom(rng, predicates), body))
    return declarations(predicates) + lines, predicates


def runnable(rng):
    """A sheet that the mode rules accept, and a goal over it that they accept."""
    if rng.random() < 0.7:
        lines, predicates = well_marked_sheet(rng)
        goal = well_marked_goal(rng, predicates)
    else:
        lines, predicates = chance_sheet(rng, "*", facts=0.75, most_clauses=8)
        goal = chance_goal(rng, predicates)
    return "\n".join(lines), goal


def mixed_family(rng, names, spelt, cycles):
    """Equations that bind the variables, but for the last ones, each to a compound term of two levels around variables behind it; with cycles around any."""
    bound = len(names) - rng.randint(1, 2)
    equations = []
    for at, name in enumerate(names[:bound]):
        inner = [rng.choice(names if cycles and rng.random() < 0.4 else names[at + 1 :]) for _ in range(2)]
        equations.append((name, spelt(*inner)))
    return equations


def mixed_pairs(rng):
    """A sheet and a goal over it: terms of two families, whose levels are f and g in turn, but which begin with another of the two. So where they meet, each
    variable stands beside a compound term, and two variables never meet; some bindings close cycles, some do not."""
    count, cycles = rng.randint(3, 6), rng.random() < 0.4
    ours, theirs = "ABCDEF"[:count], "PQRSTU"[:count]
    left = mixed_family(rng, ours, lambda x, y: "f(g(%s),g(%s))" % (x, y), cycles)
    right = mixed_family(rng, theirs, lambda x, y: "g(f(%s,%s))" % (x, y), cycles)
    equal = ["%s = f(%s,%s)" % (rng.choice(ours[:2]), *rng.choices(theirs, k=2)) for _ in range(rng.choice((1, 1, 2)))]
    sides = [[atom("t", list(side)) for side in zip(*family)] for family in (left, right)]
    families = [" = ".join(pair) for pair in sides]
    if rng.random() < 0.5:
        goal = families + equal
        rng.shuffle(goal)
        return "", ", ".join(goal) + "."
    head = atom("p", ["f(%s,%s)" % tuple(rng.choices(theirs, k=2)), *rng.choices(theirs, k=1)])
    goal = [families[0], "p(%s,Z)" % rng.choice(ours[:2])]
    rng.shuffle(goal)
    return ":- mode p(*,*).\n" + clause_text(head, families[1:]), ", ".join(goal) + "."


def damaged(rng, lines):
    """The lines with one change, which the mode rules may or may not refuse."""
    lines = list(lines)
    at = rng.randrange(len(lines))
    line = lines[at]
    if line.startswith(":-"):
        marks = [place for place in range(2, len(line)) if line[place] in MARKS]
        if marks and rng.random() < 0.9:
            place = rng.choice(marks)
            lines[at] = line[:place] + rng.choice(MARKS) + line[place + 1 :]
        else:
            del lines[at]
        return lines
    head, arrow, body = line.removesuffix(".").partition(" :- ")
    literals = body.split(", ") if arrow else []
    change = rng.choice(("variable", "variable", "constant", "swap", "drop", "add", "head", "bracket"))
    if change == "swap" and len(literals) > 1:
        rng.shuffle(literals)
    elif change == "drop" and literals:
        del literals[rng.randrange(len(literals))]
    elif change == "add":
        other = rng.choice(("true", "fail", "X = Y", "a = b", "X = a"))
        literals.insert(rng.randint(0, len(literals)), other)
    elif change == "bracket" and literals:
        at_literal = rng.randrange(len(literals))
        sides = [literals[at_literal]], [rng.choice(("true", "fail", "X = Y", "X = a"))]
        literals[at_literal] = bracket(*rng.sample(sides, 2))
    elif change == "head":
        head = head.replace(rng.choice("abc"), rng.choice("XYZ"))
    else:
        text = ", ".join([head] + literals)
        pattern = "[A-Z]" if change == "variable" else "[abc](?![(])"
        places = [found.start() for found in re.finditer(pattern, text)]
        if places:
            place = rng.choice(places)
            text = text[:place] + rng.choice("XYZ") + text[place + 1 :]
        head, *literals = text.split(", ")
    lines[at] = clause_text(head, literals)
    return lines
