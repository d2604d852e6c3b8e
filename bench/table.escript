#!/usr/bin/env escript
%% The same calls as those of ca_bench on an ordered_set of ets: 10,000 objects of the usual load. Prints a line for each kind of call, its
%% name and the nanoseconds of one.
-mode(compile).

main([]) ->
    Keys = list_to_tuple([key(N) || N <- lists:seq(0, 9999)]),
    Objects = list_to_tuple([{key(N), 1700000000, [{ip, <<"10.0.0.7">>}]} || N <- lists:seq(0, 9999)]),
    Table = ets:new(table, [ordered_set]),
    true = ets:insert(Table, tuple_to_list(Objects)),
    time("lookup", fun(I) -> ets:lookup(Table, element(I, Keys)) end),
    time("member", fun(I) -> ets:member(Table, element(I, Keys)) end),
    time("insert", fun(I) -> ets:insert(Table, element(I, Objects)) end),
    time("update_counter", fun(I) -> ets:update_counter(Table, element(I, Keys), 1) end).

key(N) -> iolist_to_binary(["user", integer_to_list(N)]).

time(Name, Call) ->
    Times = [element(1, timer:tc(fun() -> loop(0, Call) end)) || _ <- lists:seq(1, 5)],
    io:format("~s ~b~n", [Name, lists:min(Times) * 1000 div 1000000]).

loop(1000000, _) -> ok;
loop(I, Call) ->
    Call(I * 7919 rem 10000 + 1),
    loop(I + 1, Call).
