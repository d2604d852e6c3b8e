#!/usr/bin/env escript
%% The walks of ca_bench on an ordered_set of ets: tables of 1,000, 10,000 and 40,000 objects of the usual load. Prints a line for each size and
%% kind: the size, the kind's name, the nanoseconds of a call, and those of each key or object that it gave. ets has no call for the objects
%% between two keys (a guard on the key looks at the whole table): range is the quicker way, next and lookup from the lower key to the upper one.
-mode(compile).

main([]) -> [sizes(Size) || Size <- [1000, 10000, 40000]].

sizes(Size) ->
    Table = ets:new(table, [ordered_set]),
    true = ets:insert(Table, [{key(N), 1700000000, [{ip, <<"10.0.0.7">>}]} || N <- lists:seq(0, Size - 1)]),
    Spec = [{{'$1', '$2', '_'}, [{'>', '$2', 0}], ['$1']}],
    Keys = [K || {K, _, _} <- ets:tab2list(Table)],
    Places = list_to_tuple(Keys),
    time(Size, "next", Size, fun(_) -> {Size, length([ok || K <- Keys, ets:next(Table, K) =/= '$end_of_table'])} end),
    [time(Size, "range-" ++ integer_to_list(Count), Count, fun(Turn) -> range(Table, Places, Count, Turn) end) || Count <- [10, 100, 1000]],
    time(Size, "select", Size, fun(_) -> {1, length(ets:select(Table, Spec))} end),
    time(Size, "batch-100", Size, fun(_) -> batches(ets:select(Table, Spec, 100), 1, 0) end),
    ets:delete(Table).

key(N) -> iolist_to_binary(["user", integer_to_list(N)]).

%% The least time of five runs, each of 200,000 objects.
time(Size, Name, Objects, Walk) ->
    Rounds = 200000 div Objects,
    Runs = [timer:tc(fun() -> rounds(Rounds, Walk, 0, 0) end) || _ <- lists:seq(1, 5)],
    {Time, {Calls, Found}} = lists:min(Runs),
    io:format("~b ~s ~b ~b~n", [Size, Name, Time * 1000 div Calls, Time * 1000 div Found]).

rounds(0, _, Calls, Found) -> {Calls, Found};
rounds(Turn, Walk, Calls, Found) ->
    {C, F} = Walk(Turn),
    rounds(Turn - 1, Walk, Calls + C, Found + F).

range(Table, Places, Count, Turn) ->
    At = Turn * 7919 rem (tuple_size(Places) - Count + 1),
    {1, length(between(Table, element(At + 1, Places), element(At + Count, Places)))}.

%% The first elements of the objects between two keys whose second one is greater than 0.
between(_, Key, To) when Key =:= '$end_of_table'; Key > To -> [];
between(Table, Key, To) ->
    case ets:lookup(Table, Key) of
        [{First, Second, _}] when Second > 0 -> [First | between(Table, ets:next(Table, Key), To)];
        _ -> between(Table, ets:next(Table, Key), To)
    end.

batches('$end_of_table', Calls, Found) -> {Calls, Found};
batches({Results, More}, Calls, Found) -> batches(ets:select(More), Calls + 1, Found + length(Results)).
