% Times the loading of a sheet: swipl bench/load.pl -- FILE ROUNDS
% loads it anew ROUNDS times in one process, and prints the median CPU time of a load in microseconds and how many clauses were loaded.
% A declaration of marks is a directive that does nothing.
:- op(1150, fx, mode).

mode(_).

loaded(File, Microseconds) :-
    unload_file(File),
    statistics(cputime, Start),
    load_files(File, [silent(true)]),
    statistics(cputime, End),
    Microseconds is (End - Start) * 1000000.

clauses(File, Clauses) :-
    findall(N, (source_file(Head, File), predicate_property(Head, number_of_clauses(N))), Numbers),
    sum_list(Numbers, Clauses).

main :-
    current_prolog_flag(argv, Words),
    append(_, [Name, Number], Words),
    absolute_file_name(Name, File),
    atom_number(Number, Rounds),
    style_check(-singleton),
    findall(Time, (between(1, Rounds, _), loaded(File, Time)), Times),
    msort(Times, Sorted),
    Middle is Rounds // 2,
    nth0(Middle, Sorted, Median),
    clauses(File, Clauses),
    format("~1f ~w~n", [Median, Clauses]).

:- initialization(main, main).
