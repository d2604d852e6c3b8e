#!/usr/bin/env escript
%%! +S 4
%% The same calls as those of ca_bench threads on an ordered_set of ets that is public and made for concurrent writes; a process is a client.
%% Prints a line of comma-separated values for each mix of calls, number of objects and number of clients, with how many thousand calls a
%% second they carry out together.
-mode(compile).

%% How often a measure is taken, each time on a new table; the times are added.
-define(RUNS, 3).
%% How many calls all clients together play in a run.
-define(CALLS, 500000).

main([]) ->
    [line(Mix, Leaf, Count, Threads)
     || {Leaf, Count} <- [{12, 10}, {24, 20}, {60, 45}, {120, 90}], Mix <- [lookups, puts, mixed], Threads <- [1, 2, 4]].

line(Mix, Leaf, Count, Threads) ->
    Keys = list_to_tuple([key(N) || N <- lists:seq(0, Leaf - 1)]),
    Objects = list_to_tuple([{key(N), 1700000000, [{ip, <<"10.0.0.7">>}]} || N <- lists:seq(0, Leaf - 1)]),
    Calls = ?CALLS div Threads,
    Nanos = lists:sum([run(Mix, Keys, Objects, Count, Threads, Calls) || _ <- lists:seq(1, ?RUNS)]),
    io:format("ets,~s,~b,~b,~b,~b~n", [Mix, Leaf, Count, Threads, Calls * Threads * ?RUNS * 1000000 div Nanos]).

key(N) -> iolist_to_binary(["user", integer_to_list(N)]).

%% One run: the nanoseconds from the first start to the last end.
run(Mix, Keys, Objects, Count, Threads, Calls) ->
    Table = ets:new(table, [ordered_set, public, {write_concurrency, true}]),
    true = ets:insert(Table, lists:sublist(tuple_to_list(Objects), Count)),
    Self = self(),
    Clients = [spawn_opt(fun() -> client(Self, Mix, Table, Keys, Objects, Count, Number, Calls) end, [link, {min_heap_size, 10000}])
               || Number <- lists:seq(1, Threads)],
    [receive {ready, Client} -> ok end || Client <- Clients],
    [Client ! go || Client <- Clients],
    Times = [receive {done, Client, Start, End} -> {Start, End} end || Client <- Clients],
    true = ets:delete(Table),
    erlang:convert_time_unit(lists:max([End || {_, End} <- Times]) - lists:min([Start || {Start, _} <- Times]), native, nanosecond).

client(Parent, Mix, Table, Keys, Objects, Count, Number, Calls) ->
    Parent ! {ready, self()},
    receive go -> ok end,
    Start = erlang:monotonic_time(),
    play(Mix, Table, Keys, Objects, Count, Number, Calls),
    Parent ! {done, self(), Start, erlang:monotonic_time()}.

play(_, _, _, _, _, _, 0) -> ok;
play(Mix, Table, Keys, Objects, Count, Drawn, Left) ->
    Next = Drawn * 16807 rem 2147483647,
    Place = Next div 16 rem Count + 1,
    case Mix of
        lookups -> [_] = ets:lookup(Table, element(Place, Keys));
        puts -> true = ets:insert(Table, element(Place, Objects));
        mixed when Next band 3 < 2 -> [_] = ets:lookup(Table, element(Place, Keys));
        mixed when Next band 3 =:= 2 -> true = ets:insert(Table, element(Place, Objects));
        mixed -> come_or_go(Table, Keys, Objects, Next band 4, Count + 1 + Next div 16 rem (tuple_size(Keys) - Count))
    end,
    play(Mix, Table, Keys, Objects, Count, Next, Left - 1).

%% Puts an object that isn't there from the start on, where it is absent, or removes one.
come_or_go(Table, _Keys, Objects, 0, Place) -> ets:insert_new(Table, element(Place, Objects));
come_or_go(Table, Keys, _Objects, _, Place) -> ets:take(Table, element(Place, Keys)).
