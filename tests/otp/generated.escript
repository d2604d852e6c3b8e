#!/usr/bin/env escript
%% What a real `ets` table of the type `ordered_set` comes to by lines that are made from a seed, by the rule in docs/FORMATS.md.
%%   generated.escript SEED CLIENTS LINES   prints the summary that the program must print for these numbers
-mode(compile).

main(Words) ->
    [Seed, Clients, Lines] = [list_to_integer(W) || W <- Words],
    Table = ets:new(table, [ordered_set]),
    [client(Table, Client, (Seed + 1000 * (Client - 1)) rem (1 bsl 31), 1, Lines) || Client <- lists:seq(1, Clients)],
    Sum = ets:foldl(fun(Object, Before) -> Before + element(2, Object) end, 0, Table),
    io:format("generated ~b ~b~nrefused 0~nend ~b~nsum ~b~n", [Clients, Lines, ets:info(Table, size), Sum]).

client(_, _, _, Line, Lines) when Line > Lines -> ok;
client(Table, Client, X0, Line, Lines) ->
    [X1, X2, X3] = tl(lists:reverse(lists:foldl(fun(_, [X | _] = Xs) -> [next(X) | Xs] end, [X0], [a, k, v]))),
    step(Table, Line rem 16, drawn(X1) rem 8, {Client, drawn(X2) rem 500}, drawn(X3) rem 1000),
    client(Table, Client, X3, Line + 1, Lines).

next(X) -> (X * 1103515245 + 12345) rem (1 bsl 31).

drawn(X) -> X div 65536.

%% `ets` refuses to count what isn't there; the program answers such a line with an error, which changes nothing either.
step(_, 0, _, _, _) -> ok;
step(Table, _, A, Key, Value) when A < 2 -> ets:insert(Table, {Key, Value});
step(Table, _, 2, Key, Value) -> ets:insert_new(Table, {Key, Value});
step(Table, _, 3, Key, _) -> ets:lookup(Table, Key);
step(Table, _, 4, Key, _) -> ets:delete(Table, Key);
step(Table, _, 5, Key, _) -> ets:take(Table, Key);
step(Table, _, 6, Key, _) -> catch ets:update_counter(Table, Key, 1);
step(Table, _, 7, Key, _) -> ets:next(Table, Key).
