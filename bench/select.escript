#!/usr/bin/env escript
%% The selection of ca_bench on an ordered_set of ets: 1,000 objects. Prints the nanoseconds of one object, and how many were chosen.
-mode(compile).

main([]) ->
    Table = ets:new(table, [ordered_set]),
    true = ets:insert(Table, [session(N) || N <- lists:seq(0, 999)]),
    Specification = [{{'$1', '$2', active, '_', '_'}, [{'>', '$2', 499}], ['$1']}],
    Times = [element(1, timer:tc(fun() -> select(1000, Table, Specification) end)) || _ <- lists:seq(1, 5)],
    io:format("ets ~b ~b~n", [lists:min(Times) * 1000 div 1000000, length(ets:select(Table, Specification))]).

session(N) -> {iolist_to_binary(["user", integer_to_list(N)]), N, active, 1700000000, [{ip, <<"10.0.0.7">>}]}.

select(0, _, _) -> ok;
select(Rounds, Table, Specification) ->
    ets:select(Table, Specification),
    select(Rounds - 1, Table, Specification).
