#!/usr/bin/env escript
%% The selections of ca_bench's choices on an ordered_set of ets. Prints a line for each kind of object, size, share of the objects that a guard
%% lets through, and result: these four, and the nanoseconds of an object of the table.
-mode(compile).

main([]) -> [choices(Elements, Size) || Elements <- [3, 10], Size <- [1000, 10000]].

choices(Elements, Size) ->
    Table = ets:new(table, [ordered_set]),
    true = ets:insert(Table, [object(Elements, N) || N <- lists:seq(0, Size - 1)]),
    [choice(Table, Elements, Size, Share, Result) || Share <- [0, 10, 100], Result <- ['$_', '$1', true]],
    ets:delete(Table).

object(3, N) -> {key(N), N, active};
object(10, N) -> {key(N), N, active, 1700000000, 0, 1, 2, [{ip, <<"10.0.0.7">>}], web, eu}.

key(N) -> iolist_to_binary(["user", integer_to_list(N)]).

head(3) -> {'$1', '$2', active};
head(10) -> {'$1', '$2', active, '_', '_', '_', '_', '_', '_', '_'}.

choice(Table, Elements, Size, Share, Result) ->
    Below = Size div 100 * Share,
    Spec = [{head(Elements), [{'<', '$2', Below}], [Result]}],
    Below = length(ets:select(Table, Spec)),
    Rounds = 100000 div Size,
    Times = [element(1, timer:tc(fun() -> select(Rounds, Table, Spec) end)) || _ <- lists:seq(1, 5)],
    io:format("~b ~b ~b ~w ~b~n", [Elements, Size, Share, Result, lists:min(Times) * 1000 div 100000]).

select(0, _, _) -> ok;
select(Rounds, Table, Spec) ->
    ets:select(Table, Spec),
    select(Rounds - 1, Table, Spec).
