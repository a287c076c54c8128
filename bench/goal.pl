% Times a goal over a sheet: swipl bench/goal.pl -- SHEET GOAL BATCHES RUNS
% loads both with the occurs check on, takes the goal through all its answers RUNS times in each of BATCHES batches, and prints the median CPU
% time of a run in microseconds and how many answers it has. A declaration of marks is a directive that does nothing.
:- set_prolog_flag(occurs_check, true).
:- op(1150, fx, mode).
:- dynamic sheet:goal/0.

mode(_).

% The sheet goes into a module of its own; the goal becomes the body of a clause there, and is compiled.
loaded(Sheet, File) :-
    load_files(sheet:Sheet, [silent(true)]),
    setup_call_cleanup(open(File, read, In), read_term(In, Goal, []), close(In)),
    assertz(sheet:(goal :- Goal)),
    compile_predicates([sheet:goal/0]).

occurs_check :-
    X = Y,
    \+ X = f(Y).

all_answers :-
    sheet:goal,
    fail.
all_answers.

runs(0) :- !.
runs(Runs) :-
    all_answers,
    Left is Runs - 1,
    runs(Left).

timed(Runs, Microseconds) :-
    statistics(cputime, Start),
    runs(Runs),
    statistics(cputime, End),
    Microseconds is (End - Start) * 1000000 / Runs.

main :-
    current_prolog_flag(argv, Words),
    append(_, [Sheet, Goal, BatchWord, RunWord], Words),
    atom_number(BatchWord, Batches),
    atom_number(RunWord, Runs),
    occurs_check,
    style_check(-singleton),
    loaded(Sheet, Goal),
    findall(Time, (between(1, Batches, _), timed(Runs, Time)), Times),
    msort(Times, Sorted),
    Middle is Batches // 2,
    nth0(Middle, Sorted, Median),
    aggregate_all(count, sheet:goal, Answers),
    format("~3f ~w~n", [Median, Answers]).

:- initialization(main, main).
