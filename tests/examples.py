"""Worked examples: the table of RULES and the rulings on its open points.

CHECKS: sheet, what the checker prints.  GOALS: goal, how reading it answers.
RUNS: sheet, goal, what the runner prints.  SETTINGS: allowance, wanted, room,
sheet, goal, what the runner would print with these settings.  STORED: sheet,
goal, what the runner would print with the mark for a sheet stored earlier.
TRACED: sheet, goal, trace, what the runner prints.  DETERMINATE: sheet, the
line for REQUESTS (xii): yes, no with two clause numbers, or the refusal.
AFRESH: room, sheet, its one spelling by REQUESTS (iv), or the refusal's line.
WORKINGS: room, sheet, goal, workings, the line of the answer or of the refusal by
REQUESTS (xi).
The outputs are written by hand from RULES and REQUESTS, never taken from the engine.
"""

PLUS = (
    b":- mode plus(%s).\n"
    b"plus(z,N,N).\n"
    b"plus(s(M),N,s(P)) :- plus(M,N,P).\n"
)
P_OUT = b":- mode p(-). p(X) :- %s."
NEXT = b":- mode next(+,-). :- mode ends(+,-). next(off,rinse). ends(S,T) :- %s."
EIGHT = b"a,a,a,a,a,a,a,a,"
EIGHT_MARKS = b"+,+,+,+,+,+,+,+,"
LONG = b"a" * 32

TRUES = b"true," * 16

# Numerals, and names with the same digits; the last is over the limit of 31 bytes.
NUMERALS = [
    "0", "00", "0" * 31, "7", "07", "007", "0" * 30 + "7", "70", "070", "700", "1", "10", "010",
    "a7", "a07", "b007", "a_0", "0" * 32,
]

CHECKS = [
    # RULES, the table
    (PLUS % b"+,+,-", "accepted 1 2"),
    (PLUS % b"+,-,+", "accepted 1 2"),
    (PLUS % b"-,+,+", "accepted 1 2"),
    (PLUS % b"+,-,-", "refused sheet 10 28 1 0 2 plus"),
    (b"", "accepted 0 0"),
    (P_OUT % b"fail", "accepted 1 1"),
    (P_OUT % b"true", "refused sheet 10 16 1 0 1 p"),
    (P_OUT % b"a = b", "accepted 1 1"),
    (P_OUT % b"f(X,Y) = f(Y,a)", "accepted 1 1"),  # as REQUESTS (xiv) has it
    (NEXT % b"next(U,T)", "refused sheet 9 73 2 1 1 next"),
    (NEXT % b"next(S,U)", "refused sheet 10 62 2 0 2 ends"),
    (b"p(.", "refused sheet 5 2 0 0 0"),
    (b":- mode p(+). :- mode p(-).", "refused sheet 7 22 0 0 0"),
    # REQUESTS, the traps
    (b":- mode p(+,-). :- mode q. q :- p(X,X). p(a,a).", "refused sheet 9 34 1 1 1 p"),
    (b":- mode p(*,-). p(X,X).", "refused sheet 10 20 1 0 2 p"),
    (b":- mode p(-). p(X) :- true, fail.", "accepted 1 1"),
    # tokens
    (b"p\xe9.", "refused sheet 3 1 0 0 0"),
    (b"% \xe9\x00\xff", "accepted 0 0"),
    (b"\x00", "refused sheet 3 0 0 0 0"),
    (b" \t\n\r\x0b", "refused sheet 3 4 0 0 0"),
    (b"\x0c", "refused sheet 3 0 0 0 0"),
    (b"\x7f", "refused sheet 3 0 0 0 0"),
    (b"% x\rp(\n", "accepted 0 0"),
    (b"p(1a).", "refused sheet 5 3 0 0 0"),
    (b":--mode p.", "refused sheet 5 2 0 0 0"),
    (b": -mode p.", "refused sheet 3 0 0 0 0"),
    (b"p:", "refused sheet 3 1 0 0 0"),
    (b":-mode p(+).:-mode q.p(a).p % (\n(b):-q,q.q.", "accepted 2 3"),
    (b"p(" + b"a" * 31 + b",X" + b"b" * 30 + b"," + b"1" * 32 + b")",
     "refused sheet 4 66 0 0 0"),
    # order among 2 to 6
    (b"!" * 16_385, "refused sheet 2 0 0 0 0"),
    (b" " * 16_384, "accepted 0 0"),
    (b"p(a " + LONG, "refused sheet 4 4 0 0 0"),
    (b"p(" + EIGHT + LONG + b")", "refused sheet 4 18 0 0 0"),
    (b"p(" + EIGHT + b")", "refused sheet 5 18 0 0 0"),
    (b"p(" + EIGHT + b"a)", "refused sheet 6 18 0 0 0"),
    (b":-mode p(" + EIGHT_MARKS + b")", "refused sheet 5 25 0 0 0"),
    (b":-mode p(" + EIGHT_MARKS + b"+", "refused sheet 6 25 0 0 0"),
    (b":-mode p." * 64 + b":-!", "refused sheet 6 576 0 0 0"),
    (b":-mode p." * 64 + b":!", "refused sheet 3 576 0 0 0"),
    (b"p." * 256 + b"X", "refused sheet 5 512 0 0 0"),
    (b"p." * 256 + b"p(", "refused sheet 6 512 0 0 0"),
    (b"p( % x\n", "refused sheet 5 7 0 0 0"),
    (b"p(" + b"f(" * 16 + b"a" + b")" * 16 + b").", "refused sheet 6 33 0 0 0"),
    (b":-mode p. p:-" + b"f(" * 16 + b"a" + b")" * 16 + b"=a.", "accepted 1 1"),
    (b"p(_,_,_,_,_,_,_,_):-" + b"q(_,_,_,_,_,_,_,_)," * 7 + b"_", "refused sheet 6 153 0 0 0"),
    (b"p:-" + b"true,fail,X=Y,q," * 4 + b"true", "refused sheet 6 67 0 0 0"),
    # grammar
    (b"p :- X.", "refused sheet 5 6 0 0 0"),
    (b"p(1(a)).", "refused sheet 5 3 0 0 0"),
    (b"p = q.", "refused sheet 5 2 0 0 0"),
    (b":-mode p(-). p(X) :- true = X.", "accepted 1 1"),
    (b"p :- a = b = c.", "refused sheet 5 11 0 0 0"),
    (b":- mode mode(+). mode(mode).", "accepted 1 1"),
    (b":-modes p.", "refused sheet 5 2 0 0 0"),
    (b":-Mode p.", "refused sheet 5 2 0 0 0"),
    (b"p(f()).", "refused sheet 5 4 0 0 0"),
    (b"p().", "refused sheet 5 2 0 0 0"),
    (b":-mode p().", "refused sheet 5 9 0 0 0"),
    # 7 and 8
    (b"true.", "refused sheet 8 0 1 0 0 true"),
    (b"fail :- p.", "refused sheet 8 0 1 0 0 fail"),
    (b":-mode true(+). true(a).", "accepted 1 1"),
    (b":-mode p. p :- true(X).", "refused sheet 8 0 1 1 0 true"),
    (b":-mode true.", "refused sheet 7 7 0 0 0"),
    (b":-mode fail(-).:-mode fail.", "refused sheet 7 22 0 0 0"),
    (b":-mode p.:-mode q.:-mode true.:-mode q.", "refused sheet 7 25 0 0 0"),
    (b":-mode p.:-mode p(+).:-mode p(-,-). p. p(a). p(a,b).", "accepted 3 3"),
    (b"p :- q. :-mode p. :-mode p.", "refused sheet 7 25 0 0 0"),
    (b":-mode p(-). p(X). p(a) :- r.", "refused sheet 8 0 2 1 0 r"),
    (b"p(a). :-mode p(-).", "accepted 1 1"),
    # modes
    (b":-mode p(-,+). :-mode q. q :- p(X,X). p(a,a).", "refused sheet 9 34 1 1 2 p"),
    (b":-mode p(-). :-mode q(+). p(X) :- fail, q(Y), q(_). q(a).", "accepted 2 2"),
    (b":-mode p(-,-). p(X,_) :- a = f(a).", "accepted 1 1"),
    (b":-mode p(-). p(X) :- a = 1.", "accepted 1 1"),
    # REQUESTS (iii): equal without leading zeros; before, these were accepted by a clash
    (b":-mode p(-). p(X) :- 1 = 01.", "refused sheet 10 15 1 0 1 p"),
    (b":-mode p(+). p(X) :- 1 = 01, p(Y).", "refused sheet 9 31 1 2 1 p"),
    (b":-mode p(-). p(X) :- 1 = 10.", "accepted 1 1"),
    (b":-mode p(-). p(X) :- a1 = a01.", "accepted 1 1"),
    (b":-mode p(-). p(X) :- 00 = 0.", "refused sheet 10 15 1 0 1 p"),
    (b":-mode p(-). p(X) :- X = f(X).", "refused sheet 10 15 1 0 1 p"),
    (b":-mode p(-). p(X) :- f(Y,X) = f(a,Y).", "accepted 1 1"),
    # REQUESTS (xiv): an equation is gone over again, other literals are not
    (b":-mode p(-). p(X) :- f(X,Y) = f(Y,a).", "accepted 1 1"),
    (b":-mode p(-). p(X) :- f(X,Y,Z) = f(Y,Z,a).", "accepted 1 1"),
    (b":-mode p(-). p(X) :- X = Y, Y = a.", "refused sheet 10 15 1 0 1 p"),
    (b":-mode p(-). p(X) :- f(X,Y) = f(Y,Z), Z = a.", "refused sheet 10 15 1 0 1 p"),
    (b":-mode p(-). p(X):-f(X,Y)=f(Y,Z).", "refused sheet 10 15 1 0 1 p"),
    (b":-mode p(-,-). p(f(X,Z),X):-f(X,Y)=f(Y,a).", "refused sheet 10 21 1 0 1 p"),
    (b":-mode p(+). p(X) :- f(Y,Z) = f(Z,X), p(f(Y,Z)).", "accepted 1 1"),
    (b":-mode p(-). p(X) :- f(X,g(Y,h(Z))) = f(Y,g(Z,h(a))).", "accepted 1 1"),
    # 9 before, now 10 at the head, and 9 at a later literal
    (b":-mode p(-). :-mode q(+). p(X) :- f(Y,Z) = f(Z,a), q(Y). q(X).", "refused sheet 10 28 1 0 1 p"),
    (b":-mode p(-). :-mode q(+). p(X) :- f(Y,Z) = f(Z,a), q(Y), q(X). q(X).", "refused sheet 9 59 1 3 1 q"),
    # REQUESTS (ii): the first open variable in the argument, where it stands there
    (b":-mode p(+). p(X) :- Y = Z, p(f(X,g(Z),Y)).", "refused sheet 9 36 1 2 1 p"),
    (b":-mode p(-,-). p(X,f(a,Y,X)) :- X=b.", "refused sheet 10 23 1 0 2 p"),
    (b":-mode p(-). p(f(X,X)).", "refused sheet 10 17 1 0 1 p"),
    (b":-mode p(-). p(f(_,_)).", "refused sheet 10 17 1 0 1 p"),
    (b":-mode p(*,-). p(X,f(a,g(X))).", "refused sheet 10 25 1 0 2 p"),
    (b":-mode p(+,+,+). p(X,Y,Z) :- p(Y,f(X,a),g(_,W)).",
     "refused sheet 9 42 1 1 3 p"),
    # REQUESTS (x): the first declared predicate without a clause, between 8 and 9; `seen` of three arguments is exempt
    (b":-mode p(-). :-mode q. p(X).", "refused sheet 16 20 0 0 0"),
    (b":-mode p(-). :-mode q. p(X) :- r.", "refused sheet 8 0 1 1 0 r"),
    (b":-mode seen(+,+,+).", "accepted 1 0"),
    (b":-mode seen(+,+).", "refused sheet 16 7 0 0 0"),
    (b":-mode seen.", "refused sheet 16 7 0 0 0"),
    (b":-mode seen(+,+,+,+).", "refused sheet 16 7 0 0 0"),
    (b":-mode seem(+,+,+).", "refused sheet 16 7 0 0 0"),
    (b":-mode seens(+,+,+).", "refused sheet 16 7 0 0 0"),
    (b":-mode p. :-mode q. :-mode r. q.", "refused sheet 16 7 0 0 0"),
    (b":-mode p. :-mode q. :-mode r. p.", "refused sheet 16 17 0 0 0"),
    (b":-mode p. :-mode p(+). p(a).", "refused sheet 16 7 0 0 0"),
    (b"q. :-mode p. :-mode q.", "refused sheet 16 10 0 0 0"),
    (b":-mode p. :-mode q. p :- q.", "refused sheet 16 17 0 0 0"),
    (b":-mode p. :-mode p.", "refused sheet 7 17 0 0 0"),
    (b":-mode p(+). :-mode q. p(X) :- p(Y).", "refused sheet 16 20 0 0 0"),
    (b":- mode rinsed(-). :- mode rinse_end(-). rinse_end(a).", "refused sheet 16 8 0 0 0"),
    # REQUESTS (i): two bodies of one literal or more, with a semicolon between; a literal, not a term and not a head
    (b":-mode p. p:-(true;fail,true),((true;fail);true).", "accepted 1 1"),
    (b":-mode p. p :- ( true % ;\n ; true ) .", "accepted 1 1"),
    (b"(a;b):-c.", "refused sheet 5 0 0 0 0"),
    (b";", "refused sheet 5 0 0 0 0"),
    (b"p;q.", "refused sheet 5 1 0 0 0"),
    (b"p :- q;r.", "refused sheet 5 6 0 0 0"),
    (b"p :- ().", "refused sheet 5 6 0 0 0"),
    (b"p :- (q).", "refused sheet 5 7 0 0 0"),
    (b"p :- (;q).", "refused sheet 5 6 0 0 0"),
    (b"p :- (q;).", "refused sheet 5 8 0 0 0"),
    (b"p :- (q,;r).", "refused sheet 5 8 0 0 0"),
    (b"p :- (q;r;s).", "refused sheet 5 9 0 0 0"),
    (b"p :- ((q;r)).", "refused sheet 5 11 0 0 0"),
    (b"p :- (q;r) = X.", "refused sheet 5 11 0 0 0"),
    (b"p :- X = (q;r).", "refused sheet 5 9 0 0 0"),
    (b"p((q;r)).", "refused sheet 5 2 0 0 0"),
    (b"p :- q((r;s)).", "refused sheet 5 7 0 0 0"),
    (b"p :- (X;r).", "refused sheet 5 7 0 0 0"),
    (b"p :- (q.", "refused sheet 5 7 0 0 0"),
    (b"p :- (q;r", "refused sheet 5 9 0 0 0"),
    (b"p :- (q;r)(s;t).", "refused sheet 5 10 0 0 0"),
    (b":-mode p(+;-).", "refused sheet 5 10 0 0 0"),
    # 16 literals, the brackets not counted: the opening one is good behind them, the first literal inside is not
    (b":-mode p. p:-" + b"(true;true)," * 7 + b"(true;true).", "accepted 1 1"),
    (b"p:-" + b"(true;true)," * 8 + b"true", "refused sheet 6 99 0 0 0"),
    (b"p :- " + TRUES + b"(true;true).", "refused sheet 6 86 0 0 0"),
    (b"p :- " + TRUES + b"().", "refused sheet 5 86 0 0 0"),
    (b"p :- " + TRUES + b"(!", "refused sheet 3 86 0 0 0"),
    (b"p :- " + TRUES + b"(" + LONG, "refused sheet 4 86 0 0 0"),
    (b"p :- " + TRUES + b"(" * 16 + b"X", "refused sheet 6 101 0 0 0"),
    (b"p :- " + TRUES + b"(" * 16 + b";", "refused sheet 5 101 0 0 0"),
    (b"p :- " + TRUES + b"(" * 17, "refused sheet 6 101 0 0 0"),
    # 16 brackets open, for the terms inside too; closed ones do not count
    (b"p :- " + b"(" * 17 + b"true", "refused sheet 6 21 0 0 0"),
    (b"p :- " + b"(" * 16 + b"q(a)", "refused sheet 6 22 0 0 0"),
    (b"p :- " + b"(" * 15 + b"q(f(a))", "refused sheet 6 23 0 0 0"),
    (b"p:-" + b"(" * 16 + b"true" + b";true)" * 16 + b".", "refused sheet 6 114 0 0 0"),
    (b":-mode p. p:-" + b"(" * 15 + b"f(a)=f(a)" + b";true)" * 15 + b".", "accepted 1 1"),
    (b":-mode p. p:-" + b"(true;" * 15 + b"f(a)=f(a)" + b")" * 15 + b".", "accepted 1 1"),
    (b":-mode p. p:-(true;true)," + b"f(" * 16 + b"a" + b")" * 16 + b"=a.", "accepted 1 1"),
    (b"p:-(" + b"f(" * 15 + b"a" + b")" * 15 + b"=a;" + b"f(" * 16, "refused sheet 6 84 0 0 0"),
    # literal numbers left to right through both sides
    (b":-mode p. p :- (q; r).", "refused sheet 8 0 1 1 0 q"),
    (b":-mode p. p :- (true; q), r.", "refused sheet 8 0 1 2 0 q"),
    (b":-mode p. p :- (true, (p; p); true), q.", "refused sheet 8 0 1 5 0 q"),
    (b":-mode p(+). p(X) :- (true; p(Y)), p(Z).", "refused sheet 9 30 1 2 1 p"),
    (b":-mode p(+). p(X) :- (p(Y); p(Z)).", "refused sheet 9 24 1 1 1 p"),
    (b":-mode p(+). p(X) :- ((true; true), true; true), p(Y).", "refused sheet 9 51 1 5 1 p"),
    # both sides begin from what was known before the bracket; known after it is what both leave
    (b":-mode p(+). p(X) :- (Y = a; p(Y)).", "refused sheet 9 31 1 2 1 p"),
    (b":-mode p(+). p(X) :- (p(X), Y = X, p(Y); p(X)).", "accepted 1 1"),
    (b":-mode p(-). p(X) :- (X = a; true).", "refused sheet 10 15 1 0 1 p"),
    (b":-mode p(-). p(X) :- (true; X = a).", "refused sheet 10 15 1 0 1 p"),
    (b":-mode p(-). p(X) :- (X = a; X = b).", "accepted 1 1"),
    (b":-mode p(-). p(X) :- (X = a; fail).", "accepted 1 1"),
    (b":-mode p(-). p(X) :- (a = b; X = a).", "accepted 1 1"),
    (b":-mode p(-). p(X) :- (fail; fail).", "accepted 1 1"),
    (b":-mode p(-). p(X) :- ((X = a; fail); X = b).", "accepted 1 1"),
    (b":-mode p(-). p(X) :- ((X = a; true); X = b).", "refused sheet 10 15 1 0 1 p"),
    (b":-mode p(-). p(X) :- (Y = a; Y = b), X = Y.", "accepted 1 1"),
    (b":-mode p(-). p(X) :- (Y = a; Z = a), X = Y.", "refused sheet 10 15 1 0 1 p"),
    (b":-mode p(-,-). p(X,Y) :- (X = a, Y = b; Y = c).", "refused sheet 10 17 1 0 1 p"),
    (b":-mode p(-,-). p(X,Y) :- (Y = b, X = a; Y = c), X = Y.", "accepted 1 1"),
    (b":-mode p(-). p(X) :- X = a, (true; true).", "accepted 1 1"),
    # with (xiv): an equation in a side is gone over again, the bracket is not
    (b":-mode p(-). p(X) :- (f(X,Y) = f(Y,a); X = b).", "accepted 1 1"),
    (b":-mode p(-). p(X) :- (X = Y, Y = a; X = b).", "refused sheet 10 15 1 0 1 p"),
    (b":-mode p(-). p(X) :- (X = Y; X = Y), Y = a.", "refused sheet 10 15 1 0 1 p"),
    # with (x): a call in a bracket is no clause
    (b":-mode p. :-mode q. p :- (q; true).", "refused sheet 16 17 0 0 0"),
    # with (viii): the sides count together
    (b"p(_,_,_,_,_,_,_,_):-" + b"(q(_,_,_,_,_,_,_,_);q(_,_,_,_,_,_,_,_))," * 3 + b"(X=Y;q(A,B,C,D,E,F,Y,G",
     "refused sheet 6 161 0 0 0"),
]

GOALS = [
    (b"", "refused goal 5 0 0 0 0"),
    (b" % no goal\n", "refused goal 5 11 0 0 0"),
    (b"true.", "accepted 0 0"),
    (b"true. % the end", "accepted 0 0"),
    (b"true. true.", "refused goal 5 6 0 0 0"),
    (b"true. !", "refused goal 3 6 0 0 0"),
    (b"true." + LONG, "refused goal 4 5 0 0 0"),
    (b"p :- q.", "refused goal 5 2 0 0 0"),
    (b":- mode p.", "refused goal 5 0 0 0 0"),
    (b"!" * 1_025, "refused goal 2 0 0 0 0"),
    (b"true." + b" " * 1_019, "accepted 0 0"),
    # REQUESTS (i)
    (b"(true;true).", "accepted 0 0"),
    (b"((X=a;X=b);X=c).", "accepted 0 0"),
    (b"(true).", "refused goal 5 5 0 0 0"),
    (b"(true;true;true).", "refused goal 5 10 0 0 0"),
    (b"(true;).", "refused goal 5 6 0 0 0"),
    (b"(true;true) = X.", "refused goal 5 12 0 0 0"),
    (b"true;true.", "refused goal 5 4 0 0 0"),
    (b"true.;", "refused goal 5 5 0 0 0"),
    (b"(" * 17, "refused goal 6 16 0 0 0"),
    (TRUES + b"(", "refused goal 5 81 0 0 0"),
    (TRUES + b"(true", "refused goal 6 81 0 0 0"),
]

RUNS = [
    # RULES
    (PLUS % b"+,+,-", b"plus(s(z),z,X).", "X = s(z)\nend done 1 7"),
    (b"", b"X = f(X).", "end done 0 1"),
    (b"", b"true.", "yes\nend done 1 2"),
    # which of the two texts is at fault
    (b"", b"", "refused goal 5 0 0 0 0"),
    (b"p(.", b"", "refused sheet 5 2 0 0 0"),
    (b"", b"p.", "refused goal 8 0 0 1 0 p"),
    (b":-mode p(-,+). p(a,a).", b"true, p(X,Y), q.", "refused goal 8 0 0 3 0 q"),
    # REQUESTS (iii): numerals without leading zeros, in facts, goals and answers; names are not touched
    (b":-mode p(*). p(007). p(00).", b"p(7), p(X).", "X = 7\nX = 0\nend done 2 8"),
    (b"", b"01 = 1.", "yes\nend done 1 2"),
    (b"", b"X=f(000,a01,b007).", "X = f(0,a01,b007)\nend done 1 2"),
    (b"", b"a01=a1.", "end done 0 1"),
    (b"", b"X = " + b"0" * 31 + b".", "X = 0\nend done 1 2"),
    (b"", b"X = " + b"0" * 30 + b"1, X = 1.", "X = 1\nend done 1 3"),
    (b"", b"X = " + b"0" * 32 + b".", "refused goal 4 4 0 0 0"),
    (b"", b"X = 10, Y = 010, X = Y, Z = 100.", "X = 10, Y = 10, Z = 100\nend done 1 5"),
    (b":-mode p(-,+). p(a,a).", b"true, p(X,f(Y)).", "refused goal 9 12 0 2 2 p"),
    # REQUESTS (xiv): goals too
    (b":-mode p(+). p(a).", b"f(X,Y) = f(Y,a), p(X).", "X = a, Y = a\nend done 1 4"),
    (b":-mode p(+). p(a).", b"f(X,Y) = f(Y,Z), p(X).", "refused goal 9 19 0 2 1 p"),
    # REQUESTS (ii): a byte of the goal
    (b":-mode p(+). p(a).", b"p(f(a,_)).", "refused goal 9 6 0 1 1 p"),
    (b":-mode p(+). p(a).", b"X=a,p(f(X,_)).", "refused goal 9 10 0 2 1 p"),
    # the run
    (b":-mode p(*). :-mode q(*). q(c). p(a). q(d). p(b).", b"p(b).",
     "yes\nend done 1 4"),
    (b":-mode l. l :- l.", b"l.", "end deep 0 255"),
    # REQUESTS (x): neither program gives the mark; `seen` is called without a clause
    (b":-mode p.", b"true.", "refused sheet 16 7 0 0 0"),
    (b":-mode p.", b"p(", "refused sheet 16 7 0 0 0"),
    (b":-mode seen(*,*,*).", b"seen(X,Y,Z).", "end done 0 1"),
    (b"", b"A = f(B,C), C = D.",
     "A = f(_1,_2), B = _1, C = _2, D = _2\nend done 1 3"),
    (b"", b"__ = _1, _ = _X.", "__ = _1, _1 = _1, _X = _2\nend done 1 3"),
    # REQUESTS (i): one step for the bracket; the right side waits below the left one, with the bindings from before it
    (b"", b"(true;true).", "yes\nyes\nend done 2 5"),
    (b"", b"(fail;true).", "yes\nend done 1 4"),
    (b"", b"(fail;fail).", "end done 0 3"),
    (b"", b"(true).", "refused goal 5 5 0 0 0"),
    (b"", b"((X=a;X=b);X=c).", "X = a\nX = b\nX = c\nend done 3 8"),
    (b"", b"(X=a;(X=b;X=c)).", "X = a\nX = b\nX = c\nend done 3 8"),
    (b"", b"(X=a,X=b;X=c).", "X = c\nend done 1 5"),
    (b"", b"(X=a;Y=b), Z = f(X,Y).",
     "X = a, Y = _1, Z = f(a,_1)\nX = _1, Y = b, Z = f(_1,b)\nend done 2 7"),
    (b"", b"(X=a;X=b),(Y=c;Y=X).",
     "X = a, Y = c\nX = a, Y = a\nX = b, Y = c\nX = b, Y = b\nend done 4 13"),
    (b"", b"X=f(Y),(Y=a,X=f(b);Y=c).", "X = f(c), Y = c\nend done 1 6"),
    (b":-mode p(+). p(a).", b"(X = a; true), p(X).", "refused goal 9 17 0 3 1 p"),
    (b":-mode p(+). p(a).", b"(X = a; X = b), p(X).", "X = a\nend done 1 8"),
    (b":-mode p(-). p(X) :- (X = a; X = b). p(c).", b"p(X).",
     "X = a\nX = b\nX = c\nend done 3 9"),
    # path unchanged: a bracket at path 255 is no deep
    (b":-mode l. l:-(l;true).", b"l.", "end deep 0 510"),
    (b":-mode l. l:-(true;l).", b"l.", "yes\n" * 16 + "end wanted 16 64"),
    # as many alternatives as there can be, 4,096, and at most 16 for each call and for the goal
    (b":-mode p. p:-" + b"(" * 15 + b"p" + b";true)" * 15 + b".", b"(" * 15 + b"p" + b";true)" * 15 + b".",
     "end deep 0 4095"),
    # bindings of an alternative that went are not kept
    (b":-mode p(*,*). p(a,b). p(X,X).", b"p(X,Y), Y = X.",
     "X = _1, Y = _1\nend done 1 6"),
]

SETTINGS = [
    (1, 1, 0, b"", b"true.", "end steps 0 1"),
    (2, 1, 3, b"", b"true.", "end full 0 1"),
    # the wanted count reached: nothing left, a call without a further clause left, a further clause left; an allowance
    # just enough and one short, room just enough and one short
    (2, 1, 4, b"", b"true.", "yes\nend done 1 2"),
    (9, 1, 4, b"", b"true.", "yes\nend done 1 2"),
    (9, 2, 12, b":-mode p(-). p(a). p(b).", b"p(X).", "X = a\nX = b\nend wanted 2 4"),
    (9, 1, 99, b":-mode p(-). p(a).", b"p(X).", "X = a\nend wanted 1 2"),
    (2, 1, 6, b":-mode p(-). p(a).", b"p(X).", "X = a\nend wanted 1 2"),
    (1, 1, 6, b":-mode p(-). p(a).", b"p(X).", "end steps 0 1"),
    (9, 1, 5, b":-mode p(-). p(a).", b"p(X).", "end full 0 1"),
    (9, 1, 6, b":-mode p(-). p(a). p(b).", b"p(X).", "X = a\nend wanted 1 2"),
    (2, 1, 6, b"", b"X = a.", "X = a\nend done 1 2"),
    (1, 1, 6, b"", b"X = a.", "end steps 0 1"),
    (2, 1, 5, b"", b"X = a.", "end full 0 1"),
    # brackets: the right side is an alternative, also where it only fails; with none left `done` comes first
    (9, 1, 12, b"", b"(X=a;X=b).", "X = a\nend wanted 1 3"),
    (9, 2, 12, b"", b"(X=a;X=b).", "X = a\nX = b\nend done 2 5"),
    (9, 1, 12, b"", b"(X=a;fail).", "X = a\nend wanted 1 3"),
    (9, 1, 12, b"", b"(fail;X=a).", "X = a\nend done 1 4"),
    (5, 9, 12, b"", b"(X=a;X=b).", "X = a\nX = b\nend done 2 5"),
    (4, 9, 12, b"", b"(X=a;X=b).", "X = a\nend steps 1 4"),
    (3, 9, 12, b"", b"(X=a;X=b).", "X = a\nend steps 1 3"),
    (1, 9, 12, b"", b"(X=a;X=b).", "end steps 0 1"),
    (9, 9, 11, b"", b"(X=a;X=b).", "X = a\nend full 1 4"),
    (9, 9, 5, b"", b"(X=a;X=b).", "end full 0 2"),
    (0, 1, 4, b"", b"true.", "refused 1 0 0 0 0"),
    (65_537, 1, 4, b"p(", b"", "refused 1 0 0 0 0"),
    (65_536, 0, 4, b"", b"true.", "refused 1 0 0 0 0"),
    (65_536, 65, 4, b"", b"true.", "refused 1 0 0 0 0"),
    (65_536, 64, 4, b"", b"true.", "yes\nend done 1 2"),
]

STORED = [
    (b":-mode p.", b"p.", "end done 0 1"),
    (b":-mode p.", b"true.", "yes\nend done 1 2"),
    (b":-mode p. :-mode q(+,-). p :- q(a,X). p.", b"p.", "yes\nend done 1 5"),
    (b":-mode p. :-mode q(-). q(X).", b"p.", "refused sheet 10 25 1 0 1 q"),
    (b":-mode p. :-mode q(+). q(X) :- q(Y).", b"p.", "refused sheet 9 33 1 1 1 q"),
    (b":-mode p. :-mode q. q :- r.", b"p.", "refused sheet 8 0 1 1 0 r"),
    (b":-mode p. :-mode p.", b"p.", "refused sheet 7 17 0 0 0"),
    (b":-mode p.", b"q.", "refused goal 8 0 0 1 0 q"),
    (b":-mode p(+).", b"p(X).", "refused goal 9 2 0 1 1 p"),
    (b":-mode p(-). p(a).", b"p(X).", "X = a\nend done 1 3"),
    (b":-mode p.", b"(p;true).", "yes\nend done 1 4"),
    (b":-mode p. :-mode q. q :- (p; p; q).", b"q.", "refused sheet 5 30 0 0 0"),
]

SEEN = b":-mode seen(*,*,*)."
LOW = b"\x01\x00\x00\x00"  # a record of kind 1, tick 0, band low

TRACED = [
    # elapsed from the first record of either kind, over the wrap; equal ticks are 0 apart; only kind 1 is counted
    (SEEN, b"seen(K,E,B).", b"\x02\x0a\x00\x01\x05\x00\x00\x01\x05\x00\x04",
     "K = 1, E = 65531, B = low\nK = 2, E = 65531, B = rinse\nend done 2 5"),
    (SEEN, b"seen(K,E,B).", b"\x01\xff\xff\x02\x01\x00\x00\x01",
     "K = 1, E = 0, B = high\nK = 2, E = 1, B = steady\nend done 2 5"),
    (SEEN, b"seen(_,E,_).", b"\x01\xff\xff\x02\x01\x00\x00\x01\x01\xff\xff\x03", "E = 0\nE = 1\nE = 65536\nend done 3 7"),
    (SEEN, b"seen(_,E,_).", b"\x01\x01\x00\x00" + b"\x02\x00\x00\x02\x01\x00" * 2 + b"\x01\x00\x01\x00",
     "E = 0\nE = 131327\nend done 2 5"),
    (SEEN, b"seen(1,E,B).", b"\x01\x00\x00\x00\x01\x00\x01\x01\x01\x02\x01\x02\x01\x02\x02\x03\x01\x00\x00\x04",
     "E = 0, B = low\nend done 1 7"),
    (SEEN, b"seen(K,E,rinse).", LOW + b"\x01\x00\x00\x04\x02\x07\x00\x01\x08\x00\x04",
     "K = 2, E = 0\nK = 3, E = 8\nend done 2 6"),
    # an empty trace is none, and so are filler and kind 2 alone
    (b"", b"true.", b"", "yes\nend done 1 2"),
    (b"", b"true.", b"\x00\x00", "yes\nend done 1 2"),
    (b"", b"true.", b"\x02\x00\x00", "yes\nend done 1 2"),
    (SEEN, b"seen(K,E,B).", b"\x00" * 9, "end done 0 1"),
    # facts are tried behind the sheet's own clauses, one step and one path each
    (SEEN + b" seen(0,0,mine).", b"seen(_,_,B).", b"\x01\x00\x00\x03", "B = mine\nB = off\nend done 2 5"),
    (SEEN + b" seen(01,0,low).", b"seen(K,E,low).", LOW, "K = 1, E = 0\nK = 1, E = 0\nend done 2 5"),
    (SEEN, b"seen(01,E,B).", b"\x01\x00\x00\x03", "E = 0, B = off\nend done 1 3"),
    (b":-mode seen(-,-,-). :-mode p(-). p(B) :- seen(_,_,B), seen(2,_,B).", b"p(X).", LOW + LOW, "X = low\nX = low\nend done 2 13"),
    (b":-mode seen(+,-,-).", b"seen(2,E,B).", LOW + b"\x01\x09\x00\x01", "E = 9, B = steady\nend done 1 4"),
    (b":-mode seen(+,+,+).", b"seen(K,0,low).", LOW, "refused goal 9 5 0 1 1 seen"),
    # the order: settings, sheet, 14 for bytes, 13, 14 for records, 15, goal
    (b"", b"!", b"\x09", "refused trace 13 0 0 0 0"),
    (b"", b"!", LOW, "refused trace 15 0 0 0 0"),
    (SEEN, b"!", LOW, "refused goal 3 0 0 0 0"),
    (b"p(", b"!", b"\x09", "refused sheet 5 2 0 0 0"),
    (b":-mode p.", b"!", b"\x09", "refused sheet 16 7 0 0 0"),
    (b"", b"true.", b"\x09" + b"\x00" * 16_384, "refused trace 14 0 0 0 0"),
    (b"", b"true.", b"\x09" + b"\x00" * 16_383, "refused trace 13 0 0 0 0"),
    (b"", b"true.", LOW * 193 + b"\x01", "refused trace 13 772 0 0 0"),
    (b"", b"true.", LOW * 193, "refused trace 14 0 0 0 0"),
    (b"", b"true.", LOW * 192, "refused trace 15 0 0 0 0"),
    (SEEN, b"true.", LOW * 192, "yes\nend done 1 2"),
    (SEEN, b"true.", LOW * 193, "refused trace 14 0 0 0 0"),
    (b":-mode seen(*,*).", b"true.", LOW, "refused sheet 16 7 0 0 0"),
    (b":-mode seen(*,*). seen(a,b).", b"true.", LOW, "refused trace 15 0 0 0 0"),
    # 13: the record's start, or the byte after filler begins
    (b"", b"true.", b"\x00\x00\x01", "refused trace 13 2 0 0 0"),
    (b"", b"true.", b"\x02\x00\x00\x01\x00\x00\x05", "refused trace 13 3 0 0 0"),
    (b"", b"true.", b"\x02\x00\x00\x02\x00", "refused trace 13 3 0 0 0"),
    (b"", b"true.", b"\x02\x00\x00\x03", "refused trace 13 3 0 0 0"),
    (b"", b"true.", b"\x02\x00\x00\x00\x02\x00", "refused trace 13 4 0 0 0"),
    (b"", b"true.", b"\x02\x00\x00\xff\x09", "refused trace 13 3 0 0 0"),
]

# REQUESTS (xii) and the rulings on it. A no names the first pair of clauses, or the first with a bracket, and 0.
TWO = b":-mode p(+,+). "
DETERMINATE = [
    # common instances: with occurs check, jointly, variables apart but shared within a clause
    (TWO + b"p(X,X). p(Y,f(Y)).", "yes"),
    (TWO + b"p(a,X). p(X,b).", "no 1 2"),
    (TWO + b"p(X,X). p(a,b).", "yes"),
    (TWO + b"p(X,X). p(Y,Z).", "no 1 2"),
    (TWO + b"p(X,X). p(f(Y),Y).", "yes"),
    (TWO + b"p(X,Y). p(f(Y),f(X)).", "no 1 2"),
    (TWO + b"p(f(X),f(Y)). p(Y,Y).", "no 1 2"),
    (TWO + b"p(X,f(X)). p(f(Y),Y).", "yes"),
    (TWO + b"p(f(X),X). p(X,a).", "no 1 2"),
    (TWO + b"p(f(X),a). p(X,X).", "yes"),
    (b":-mode p(+). p(X). p(f(X)).", "no 1 2"),
    (b":-mode p(+). p(f(a,X)). p(f(X,b)).", "no 1 2"),
    (b":-mode p(+). p(f(X,X)). p(f(a,b)).", "yes"),
    (b":-mode p(+). p(f(_,_)). p(f(a,b)).", "no 1 2"),
    (b":-mode p(+,+,+). p(X,Y,Y). p(Z,Z,f(Z)).", "yes"),
    (b":-mode p(+,+,+). p(X,Y,f(Y)). p(Z,Z,X).", "no 1 2"),
    # names, numbers of arguments, numerals by value
    (b":-mode p(+). p(a). p(b).", "yes"),
    (b":-mode p(+). p(a). p(a).", "no 1 2"),
    (b":-mode p(+). p(f). p(f(a)).", "yes"),
    (b":-mode p(+). p(f(a)). p(f(a,a)).", "yes"),
    (b":-mode p(+). p(1). p(01).", "no 1 2"),
    (b":-mode p(+). p(1). p(10).", "yes"),
    (b":-mode p(+). p(0). p(000).", "no 1 2"),
    (b":-mode p(+). p(a1). p(a01).", "yes"),
    # - and * arguments are not looked at; with no + argument there is a common instance
    (b":-mode p(+,-). p(a,b). p(a,c).", "no 1 2"),
    (b":-mode p(+,*). p(a,b). p(a,c).", "no 1 2"),
    (b":-mode p(*,+). p(a,b). p(a,c).", "yes"),
    (b":-mode p(-,*). p(a,b). p(c,d).", "no 1 2"),
    (b":-mode p. p. p.", "no 1 2"),
    (b":-mode p(-). p(a).", "yes"),
    (b"", "yes"),
    (PLUS % b"+,+,-", "yes"),
    (PLUS % b"+,-,+", "yes"),
    (PLUS % b"-,+,+", "no 1 2"),
    # a predicate is a name with a number of arguments
    (b":-mode p(+). :-mode p(+,+). p(X). p(X,Y).", "yes"),
    (b":-mode p. :-mode q. p. q.", "yes"),
    (b":-mode p. :-mode q. p. q. p.", "no 1 3"),
    # every pair counts, reached or not, and bodies say nothing
    (b":-mode p(+). :-mode q. p(X) :- fail. p(a) :- fail. q.", "no 1 2"),
    (b":-mode p(+). p(X) :- X = a. p(X) :- X = b.", "no 1 2"),
    # the lowest first clause, then the lowest second
    (b":-mode p(+). p(a). p(b). p(b). p(a).", "no 1 4"),
    (b":-mode p(+). p(a). p(b). p(a). p(X).", "no 1 3"),
    (b":-mode p(+). p(a). p(b). p(b). p(c).", "no 2 3"),
    (b":-mode p(+). :-mode q. p(a). q. p(b). q. p(b).", "no 2 4"),
    # a bracket is told before any pair
    (b":-mode p. p :- (true;fail).", "no 1 0"),
    (b":-mode p(+). p(a). p(b) :- true, (fail;fail).", "no 2 0"),
    (b":-mode p. p. p. p :- (true;true). p :- (true;true).", "no 3 0"),
    (b":-mode p. p :- ((true;true);true).", "no 1 0"),
    # the sheet's refusals come first; there is no mark
    (b"p(", "refused sheet 5 2 0 0 0"),
    (b"p. p.", "refused sheet 8 0 1 0 0 p"),
    (b":-mode p. :-mode q. p. p.", "refused sheet 16 17 0 0 0"),
    (b":-mode p. :-mode seen(+,+,+). p.", "yes"),
    (b":-mode p. p. p. :-mode p.", "refused sheet 7 23 0 0 0"),
    (b":-mode p(+). p(a) :- (p(X);true).", "refused sheet 9 24 1 1 1 p"),
    (b":-mode p(-). p(a). p(X).", "refused sheet 10 21 2 0 1 p"),
]

# REQUESTS (iv) and the rulings on it.
AFRESH = [
    (0, b"", ""),
    (99, b"", ""),
    (99, b" % nothing\n", ""),
    # 11: the output exceeds the buffer, after 10 and 16
    (14, b":-mode p.p.", ":- mode p.\np.\n"),
    (13, b":-mode p.p.", "refused sheet 11 0 0 0 0"),
    (0, b":-mode p.p.", "refused sheet 11 0 0 0 0"),
    (0, b":-mode p.", "refused sheet 16 7 0 0 0"),
    (0, b":-mode p(-).p(X).", "refused sheet 10 14 1 0 1 p"),
    (99, b"p.", "refused sheet 8 0 1 0 0 p"),
    (99, b"p(.", "refused sheet 5 2 0 0 0"),
    # declarations first, each kind in its order; blanks and comments
    (99, b"p(X,_):-q,(Y=X;_=007). :-mode q. :-mode p(*,*). q.", ":- mode q.\n:- mode p(*,*).\np(V1,V2):-q,(V3=V1;V4=7).\nq.\n"),
    (99, b"q.p.:-mode p.% p\n:-\nmode\tq .", ":- mode p.\n:- mode q.\nq.\np.\n"),
    (99, b":-mode p(+ , - ,*) . p( a , b,c ).", ":- mode p(+,-,*).\np(a,b,c).\n"),
    # variables by first appearance in the clause, each `_` too
    (99, b":-mode p(*,*).p(_,_).p(X,Y).p(Y,X).p(X,X).p(V2,V1).", ":- mode p(*,*).\np(V1,V2).\np(V1,V2).\np(V1,V2).\np(V1,V1).\np(V1,V2).\n"),
    (99, b":-mode p(*).p(f(B,_,A,B)):-A=_,C=B.", ":- mode p(*).\np(f(V1,V2,V3,V1)):-V3=V4,V5=V1.\n"),
    # numerals without leading zeros
    (99, b":-mode p(*,*,*,*).p(00,010,a01,7).", ":- mode p(*,*,*,*).\np(0,10,a01,7).\n"),
    # true and fail as they stand; brackets
    (99, b":-mode p.p:-true.p.p:-fail,(true;((p;p),p;p)).", ":- mode p.\np:-true.\np.\np:-fail,(true;((p;p),p;p)).\n"),
]

# REQUESTS (xi) and the rulings on it.
AB, QA, A = b":-mode p(*). p(a). p(b).", b":-mode p(*). :-mode q. q. p(a).", b":-mode p(*). p(a)."
WORKINGS = [
    # sides and clauses, in the order leftmost resolution meets them
    (99, AB, b"(p(X);X=c), X = Y.", b"\2\1\2\0", "X = b, Y = b"),
    (99, AB, b"(p(X);X=c), X = Y.", b"\3", "X = c, Y = c"),
    (99, AB, b"(p(X);X=c), X = Y.", b"\3\1\2\0", "refused workings 17 1 0 0 0"),
    (99, AB, b"(p(X);X=c), X = Y.", b"\1\2\0", "refused workings 17 0 0 0 0"),
    (99, AB, b"(p(X);X=c), X = Y.", b"\2\2", "refused workings 17 1 0 0 0"),
    (99, AB, b"(p(X);X=c), X = Y.", b"\2", "refused workings 17 1 0 0 0"),
    (99, AB, b"(p(X);X=c), X = Y.", b"", "refused workings 17 0 0 0 0"),
    # the number is the sheet's: from 1, of all predicates; low byte first
    (99, QA, b"p(X).", b"\1\2\0", "X = a"),
    (99, QA, b"p(X).", b"\1\1\0", "refused workings 17 0 0 0 0"),
    (99, QA, b"p(X).", b"\1\0\0", "refused workings 17 0 0 0 0"),
    (99, QA, b"p(X).", b"\1\3\0", "refused workings 17 0 0 0 0"),
    (99, QA, b"p(X).", b"\1\2\1", "refused workings 17 0 0 0 0"),
    (99, b":-mode p(*). :-mode p(*,*). p(a,b). p(a).", b"p(X).", b"\1\1\0", "refused workings 17 0 0 0 0"),
    # a record is used up once all before the next call or bracket has gone through
    (99, A, b"p(X), p(Y), X = b.", b"\1\1\0\1\1\0", "refused workings 17 3 0 0 0"),
    (99, A, b"p(X), X = b, p(Y).", b"\1\1\0\1\1\0", "refused workings 17 0 0 0 0"),
    (99, A, b"a = b, p(X).", b"\x09\x09", "refused workings 17 0 0 0 0"),
    (99, A, b"p(X), fail, p(Y).", b"\1\1\0\x09", "refused workings 17 0 0 0 0"),
    (99, b"", b"(true;fail).", b"\3", "refused workings 17 0 0 0 0"),
    (99, b"", b"(true;fail).", b"\2", "yes"),
    # run out: the length; over: the first of them; cut short: its start
    (99, A, b"p(X), p(Y).", b"\1\1\0", "refused workings 17 3 0 0 0"),
    (99, A, b"p(X).", b"\1\1\0\x09", "refused workings 17 3 0 0 0"),
    (99, A, b"p(X).", b"\1\1\0\2\x09", "refused workings 17 3 0 0 0"),
    (99, A, b"p(X).", b"\1\1", "refused workings 17 0 0 0 0"),
    (99, A, b"p(X), p(Y).", b"\1\1\0\1\1", "refused workings 17 3 0 0 0"),
    (99, A, b"p(X).", b"\0", "refused workings 17 0 0 0 0"),
    (99, A, b"p(X).", b"\4", "refused workings 17 0 0 0 0"),
    # no records; the line and its room
    (99, b"", b"true.", b"", "yes"),
    (99, b"", b"fail.", b"", "refused workings 17 0 0 0 0"),
    (99, b"", b"true.", b"\x09", "refused workings 17 0 0 0 0"),
    (4, b"", b"true.", b"", "yes"),
    (3, b"", b"true.", b"", "refused 18 0 0 0 0"),
    (3, b"", b"true.", b"\2", "refused workings 17 0 0 0 0"),
    # path 255 is not passed, and a bracket does not lengthen it
    (99, b":-mode l. l:-l. l.", b"l.", b"\1\1\0" * 254 + b"\1\2\0", "yes"),
    (99, b":-mode l. l:-l. l.", b"l.", b"\1\1\0" * 255 + b"\1\2\0", "refused workings 17 765 0 0 0"),
    (99, b":-mode l. l:-(l;true).", b"l.", b"\1\1\0\2" * 254 + b"\1\1\0\3", "yes"),
    # the sheet's refusals, 16 too, then the goal's
    (99, b":-mode p.", b"p", b"\x09", "refused sheet 16 7 0 0 0"),
    (99, b"", b"p.", b"\x09", "refused goal 8 0 0 1 0 p"),
    (99, b":-mode p(+). p(a).", b"p(X).", b"\x09", "refused goal 9 2 0 1 1 p"),
]

# Sheet (free of faults 2 to 8), goal, most steps; open inputs, open outputs, steps.
COUNTS = [
    (PLUS % b"+,+,-", b"plus(s(z),z,X).", 100, (0, 0, 7)),
    (P_OUT % b"true", b"p(X).", 100, (0, 1, 4)),
    (P_OUT % b"fail", b"p(X).", 100, (0, 0, 3)),
    # a call is taken up at each step that finds it first, the last one too
    (b":-mode p(+). p(X).", b"p(X).", 100, (2, 0, 3)),
    (b":-mode p(+). p(X).", b"p(X).", 1, (1, 0, 1)),
    (b":-mode p(+,*,+).", b"p(X,Y,f(Z)).", 100, (2, 0, 1)),
    # the state right after success counts, not what is bound later
    (b":-mode p(-). p(X).", b"p(X), X = a.", 100, (0, 1, 4)),
    # one step may show several successes, each once in a line of descent
    (b":-mode p(-). :-mode q(-). p(X) :- q(X). q(X).", b"p(X).", 100, (0, 2, 5)),
    (b":-mode p(-). :-mode q(-). p(X) :- q(X), true. q(X).", b"p(X), true.", 100, (0, 2, 7)),
    # each alternative on its own, and past deep
    (b":-mode p(-). p(X). p(X) :- true. p(a).", b"p(X).", 100, (0, 2, 8)),
    (b":-mode l. l :- l.", b"l.", 1_000, (0, 0, 1_000)),
    # both sides of a bracket, each with the calls before it: an output that one side leaves open, an input that one leaves open
    (b":-mode p(-). p(X) :- (X = a; true).", b"p(X).", 100, (0, 1, 7)),
    (b":-mode p(-). p(X) :- (true; true).", b"p(X).", 100, (0, 2, 7)),
    (b":-mode p(-). p(X) :- (X = a; X = b).", b"p(X).", 100, (0, 0, 7)),
    (b":-mode p(-). p(X) :- (X = a; fail).", b"p(X).", 100, (0, 0, 6)),
    (b":-mode p(+). p(X).", b"(X = a; true), p(X).", 100, (2, 0, 9)),
    (b":-mode p(+). p(X).", b"(Y = a; p(Y)).", 100, (2, 0, 6)),
    (b":-mode p(-). p(X).", b"p(X), (X = a; X = b).", 100, (0, 1, 7)),
    (b":-mode p(-). :-mode q(-). p(X) :- (q(X); q(X)). q(X).", b"p(X).", 100, (0, 4, 9)),
]
