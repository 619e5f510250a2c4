#!/usr/bin/env escript
%%! +S 1 +sbwt none
%% The plan of records in Erlang: fetch, normalise and place of each record are processes, which wait for a message.
%%
%%   escript records.erl ARRIVALS
%%
%% prints its name and what a woken call takes, in nanoseconds on one scheduler: from the first arrival on, and from the start.
-mode(compile).

-define(PLAYS, 2001).
-define(WARM, 200).
-define(CALLS, 3).

%% ---- the plan

fetch(Next) -> receive Source -> Next ! fetched(Source) end.
normalise(Next) -> receive Form -> Next ! normalised(Form) end.
place(Shelf, Index) -> receive 20 -> Index ! {placed, Shelf} end.

fetched(0) -> 11;
fetched(2) -> 12.

normalised(11) -> 20;
normalised(12) -> 20.

record(Shelf, Index) ->
    Place = spawn(fun() -> place(Shelf, Index) end),
    Normalise = spawn(fun() -> normalise(Place) end),
    spawn(fun() -> fetch(Normalise) end).

%% Two records on each shelf; what is answered waits for the sources.
goal(Records) ->
    Index = self(),
    list_to_tuple([record(1 + Number div 2, Index) || Number <- lists:seq(0, Records - 1)]).

%% ---- arrivals: a message to the process that fetches

arrive(Arrivals, Sources) ->
    lists:foreach(fun({Variable, Value}) -> element(Variable, Sources) ! Value end, Arrivals).

%% The shelves in the order in which records were placed.
placed(0) -> [];
placed(Records) -> receive {placed, Shelf} -> [Shelf | placed(Records - 1)] end.

read_arrivals(Path) ->
    {ok, Text} = file:read_file(Path),
    Lines = string:lexemes(binary_to_list(Text), "\n"),
    [begin
         {ok, [Variable, Value], _} = io_lib:fread("~d ~d", Line),
         {Variable + 1, Value}
     end || Line <- Lines].

%% ---- times

%% One play: nanoseconds from the first arrival, and from the start.
play(Arrivals, Records) ->
    Start = erlang:monotonic_time(nanosecond),
    Sources = goal(Records),
    erlang:yield(),
    Waiting = erlang:monotonic_time(nanosecond),
    arrive(Arrivals, Sources),
    Shelves = placed(Records),
    End = erlang:monotonic_time(nanosecond),
    true = lists:sort(Shelves) =:= [1 + Number div 2 || Number <- lists:seq(0, Records - 1)],
    {End - Waiting, End - Start}.

median(Times) -> lists:nth(1 + length(Times) div 2, lists:sort(Times)).

main([Path]) ->
    Arrivals = read_arrivals(Path),
    Records = length(Arrivals),
    [play(Arrivals, Records) || _ <- lists:seq(1, ?WARM)],
    {Woken, Whole} = lists:unzip([play(Arrivals, Records) || _ <- lists:seq(1, ?PLAYS)]),
    Calls = ?CALLS * Records,
    Release = erlang:system_info(otp_release),
    io:format("Erlang/OTP ~s,~.1f,~.1f~n", [Release, median(Woken) / Calls, median(Whole) / Calls]).
