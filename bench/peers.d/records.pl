% The plan of records in SWI-Prolog: a call that has to wait is frozen on what it waits for.
%
%   swipl -O records.pl ARRIVALS
%
% prints its name and what a woken call takes, in nanoseconds of processor time: from the first arrival on, and from the start.
:- initialization(main, main).

% ---- the plan

shelf(S, K, L, P, Q) :-
    record(S, K, P),
    record(S, L, Q).

record(S, K, P) :-
    freeze(K, fetch(K, A)),
    freeze(A, normalise(A, B)),
    freeze(B, place(B, S, P)).

fetch(0, 11).
fetch(2, 12).

normalise(11, 20).
normalise(12, 20).

place(20, S, S).

goal(sources(A, B, C, D, E, F, G, H, I, J, K, L, M, N, O, P), [Q, R, S, T, U, V, W, X, Y, Z, A1, B1, C1, D1, E1, F1]) :-
    shelf(1, A, B, Q, R), shelf(2, C, D, S, T), shelf(3, E, F, U, V), shelf(4, G, H, W, X),
    shelf(5, I, J, Y, Z), shelf(6, K, L, A1, B1), shelf(7, M, N, C1, D1), shelf(8, O, P, E1, F1).

% ---- arrivals: a value is bound, and what was frozen on it runs

arrive([], _).
arrive([Variable-Value|Later], Sources) :-
    arg(Variable, Sources, Value),
    arrive(Later, Sources).

read_arrivals(Path, Arrivals) :-
    read_file_to_string(Path, Text, []),
    split_string(Text, "\n", "\n", Lines),
    findall(Variable-Value,
            ( member(Line, Lines),
              split_string(Line, " ", "", [First, Second]),
              number_string(Number, First),
              number_string(Value, Second),
              Variable is Number + 1 ),
            Arrivals).

% Before the first arrival nothing is placed, and after the last one everything.
right(Arrivals) :-
    goal(Sources, Places),
    maplist(var, Places),
    arrive(Arrivals, Sources),
    Places == [1, 1, 2, 2, 3, 3, 4, 4, 5, 5, 6, 6, 7, 7, 8, 8].

% ---- times

plays(100).
rounds(21).

% Processor seconds of a round of plays from the start.
from_start(Arrivals, Seconds) :-
    plays(Plays),
    statistics(cputime, Start),
    forall(between(1, Plays, _), ( goal(Sources, _), arrive(Arrivals, Sources) )),
    statistics(cputime, End),
    Seconds is End - Start.

% The same less what it takes until every call waits.
from_arrival(Arrivals, Seconds) :-
    plays(Plays),
    statistics(cputime, Start),
    forall(between(1, Plays, _), goal(_, _)),
    statistics(cputime, End),
    from_start(Arrivals, Whole),
    Seconds is Whole - (End - Start).

% The median of the rounds, as nanoseconds a woken call: fetch, normalise and place of each record.
median(Measure, Arrivals, Nanoseconds) :-
    rounds(Rounds),
    findall(Seconds, ( between(1, Rounds, _), call(Measure, Arrivals, Seconds) ), Found),
    msort(Found, Sorted),
    Middle is Rounds // 2,
    nth0(Middle, Sorted, Median),
    plays(Plays),
    length(Arrivals, Records),
    Nanoseconds is Median * 1.0e9 / (Plays * 3 * Records).

main([Path]) :-
    read_arrivals(Path, Arrivals),
    right(Arrivals),
    from_start(Arrivals, _),
    median(from_arrival, Arrivals, Woken),
    median(from_start, Arrivals, Whole),
    current_prolog_flag(version_data, swi(Major, Minor, Patch, _)),
    format("SWI-Prolog ~w.~w.~w,~1f,~1f~n", [Major, Minor, Patch, Woken, Whole]).
