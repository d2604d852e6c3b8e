#!/usr/bin/env escript
%%! +S 4
%% The same calls as those of ca_bench tree on an ordered_set of ets that is public: without write_concurrency (`ets`), and with it (`ets-wc`). A
%% process is a client. Prints a line of comma-separated values for each mix of calls, number of objects and number of clients, with how many
%% thousand calls a second they carry out together: all lines, or those that begin with its words, such as `ets-wc,mixed,10000,4`.
-mode(compile).

%% How often a measure is taken, each time on a new table; the times are added.
-define(RUNS, 3).
%% How many calls all clients together play in a run.
-define(CALLS, 400000).
%% What is added to each number.
-define(BASE, 16777216).

%% Behind how many calls of all clients together a hot spot moves, how many spots a run has, and how far the next spot and the next key of a wave are.
-define(SPOT_CALLS, 100000).
-define(SPOTS, 20).
-define(STEP, 7919).

main(Words) ->
    put(words, Words),
    Mixes = [{lookups, even}, {mixed, even}, {'skewed-lookups', skewed}, {'skewed-mixed', skewed}, {counter, 1}, {counters, 4},
             {'user-lookups', even}, {'user-mixed', even}, {'ranges-10', 10}, {'ranges-100', 100}, {'ranges-1000', 1000},
             {moving, skewed}, {waves, even}],
    [begin
         [line(Who, Options, Mix, 10000, Threads) || Mix <- Mixes, Threads <- [1, 2, 4]],
         [line(Who, Options, Mix, Objects, 1) || Mix <- lists:sublist(Mixes, 2), Objects <- [100, 400, 1000, 4000, 40000]],
         [line(Who, Options, Mix, Objects, Threads) || Mix <- lists:sublist(Mixes, 2), Objects <- [100000, 1000000], Threads <- [1, 4]]
     end || {Who, Options} <- [{ets, []}, {'ets-wc', [{write_concurrency, true}]}]].

%% Prints a line, where no words are given, or it begins with one of them.
line(Who, Options, Mix, Objects, Threads) ->
    Begin = lists:flatten(io_lib:format("~s,~s,~b,~b", [Who, element(1, Mix), Objects, Threads])),
    case get(words) =:= [] orelse lists:member(Begin, get(words)) of
        true -> line(Begin, Options, Mix, {Objects, Threads});
        false -> ok
    end.

line(Begin, Options, {Mix, Key}, {Objects, Threads}) ->
    Numbers = shuffled(Objects),
    Calls = calls(Mix, Key) div Threads,
    Nanos = lists:sum([run(Options, Mix, Key, Numbers, Threads, Calls) || _ <- lists:seq(1, ?RUNS)]),
    io:format("~s,~b,0,0~n", [Begin, Calls * Threads * ?RUNS * 1000000 div Nanos]).

%% How many calls are played of a mix: fewer, where ranges are longer.
calls(Mix, Most) ->
    case kind(Mix) of
        ranges -> 20000000 div (Most + 40);
        moving -> ?SPOTS * ?SPOT_CALLS;
        _ -> ?CALLS
    end.

object(Key) -> {?BASE + Key, ?BASE + 1, ?BASE + 2, ?BASE + 3, ?BASE + 4, ?BASE + 5, ?BASE}.

%% The keys and the objects of a mix by their numbers: made anew each time, but for those whose keys are texts.
load(Mix, Count) when Mix =:= 'user-lookups'; Mix =:= 'user-mixed' ->
    {list_to_tuple([user(N) || N <- lists:seq(0, Count - 1)]),
     list_to_tuple([{user(N), 1700000000, [{ip, <<"10.0.0.7">>}]} || N <- lists:seq(0, Count - 1)])};
load(_, _) -> numbers.

user(N) -> iolist_to_binary(["user", integer_to_list(N)]).

key(numbers, Number) -> ?BASE + Number;
key({Keys, _}, Number) -> element(Number + 1, Keys).

object(numbers, Number) -> object(Number);
object({_, Objects}, Number) -> element(Number + 1, Objects).

draw(Drawn) -> Drawn * 16807 rem 2147483647.

%% A number below the count, all of which come as often; or of which small ones come far more often.
number(even, Drawn, Count) -> Drawn div 16 rem Count;
number(skewed, Drawn, Count) ->
    Number = Drawn div 16 rem Count,
    Square = Number * Number div Count,
    Square * Square div Count.

%% The numbers below the count in an order without pattern.
shuffled(Count) -> shuffled(0, Count, 1, #{}).

shuffled(Count, Count, _, Numbers) -> [maps:get(Place, Numbers) || Place <- lists:seq(0, Count - 1)];
shuffled(Number, Count, Drawn, Numbers) ->
    Next = draw(Drawn),
    Other = number(even, Next, Number + 1),
    There = maps:get(Other, Numbers, Number),
    shuffled(Number + 1, Count, Next, Numbers#{Number => There, Other => Number}).

%% One run: the nanoseconds from the first start to the last end.
run(Options, Mix, Key, Numbers, Threads, Calls) ->
    Table = ets:new(table, [ordered_set, public | Options]),
    Keys = 2 * length(Numbers),
    Load = load(Mix, Keys),
    [true = ets:insert(Table, object(Load, 2 * Number)) || Number <- Numbers],
    Self = self(),
    Clients = [spawn_opt(fun() -> client(Self, Mix, how(Mix, Key, Number, Threads), Table, {Keys, Load}, Number, Calls) end, [link, {min_heap_size, 10000}])
               || Number <- lists:seq(1, Threads)],
    [receive {ready, Client} -> ok end || Client <- Clients],
    [Client ! go || Client <- Clients],
    Times = [receive {done, Client, Start, End} -> {Start, End} end || Client <- Clients],
    true = kind(Mix) =/= counters orelse lists:sum([element(7, Object) - ?BASE || Object <- ets:tab2list(Table)]) =:= Calls * Threads,
    true = ets:delete(Table),
    erlang:convert_time_unit(lists:max([End || {_, End} <- Times]) - lists:min([Start || {Start, _} <- Times]), native, nanosecond).

%% What a client of this number among so many plays by: behind how many calls its hot spot moves; which share of the objects it has.
how(moving, _, _, Threads) -> ?SPOT_CALLS div Threads;
how(waves, _, Number, Threads) -> {Number, Threads};
how(_, Key, _, _) -> Key.

client(Parent, Mix, Key, Table, Load, Number, Calls) ->
    Parent ! {ready, self()},
    receive go -> ok end,
    Start = erlang:monotonic_time(),
    case Mix of
        moving -> move(Key, Table, Load, {0, Number}, Calls);
        waves -> roll(Key, Table, Load, 0, Calls);
        _ -> play(kind(Mix), Key, Table, Load, Number, Calls)
    end,
    Parent ! {done, self(), Start, erlang:monotonic_time()}.

kind('skewed-lookups') -> lookups;
kind('skewed-mixed') -> mixed;
kind('user-lookups') -> lookups;
kind('user-mixed') -> mixed;
kind(counter) -> counters;
kind('ranges-10') -> ranges;
kind('ranges-100') -> ranges;
kind('ranges-1000') -> ranges;
kind(Mix) -> Mix.

play(_, _, _, _, _, 0) -> ok;
play(counters, Count, Table, {Keys, _} = Load, Drawn, Left) ->
    Next = draw(Drawn),
    Apart = Keys div Count,
    _ = ets:update_counter(Table, ?BASE + number(even, Next, Count) * Apart + Apart div 2, {7, 1}),
    play(counters, Count, Table, Load, Next, Left - 1);
play(ranges, Most, Table, {Keys, Pairs} = Load, Drawn, Left) ->
    Next = draw(Drawn),
    Key = number(even, Next, Keys),
    Kind = draw(Next),
    Last = case number(even, Kind, 100) of
        Percent when Percent < 55 -> ets:lookup(Table, key(Pairs, Key)), Kind;
        Percent when Percent < 65 -> true = ets:insert(Table, object(Pairs, Key)), Kind;
        Percent when Percent < 75 -> ets:take(Table, key(Pairs, Key)), Kind;
        _ ->
            Size = draw(Kind),
            ok = range(Table, ?BASE + Key - 1, ?BASE + Key + 2 * (number(even, Size, Most) + 1)),
            Size
    end,
    play(ranges, Most, Table, Load, Last, Left - 1);
play(Mix, How, Table, {Keys, Pairs} = Load, Drawn, Left) ->
    Next = draw(Drawn),
    Key = number(How, Next, Keys),
    case Mix of
        lookups -> 1 - Key band 1 =:= length(ets:lookup(Table, key(Pairs, Key))) orelse exit(wrong);
        mixed when Next band 3 < 2 -> ets:lookup(Table, key(Pairs, Key));
        mixed when Next band 3 =:= 2 -> true = ets:insert(Table, object(Pairs, Key));
        mixed -> ets:take(Table, key(Pairs, Key))
    end,
    play(Mix, How, Table, Load, Next, Left - 1).

%% Half lookups, a quarter puts and a quarter removals, of keys near one far more often, which is another one behind each so many calls.
move(_, _, _, {Calls, _}, Calls) -> ok;
move(Each, Table, {Keys, Pairs} = Load, {Done, Drawn}, Calls) ->
    Next = draw(Drawn),
    Key = (Done div Each * ?STEP rem Keys + number(skewed, Next, Keys)) rem Keys,
    case Next band 3 of
        2 -> true = ets:insert(Table, object(Pairs, Key));
        3 -> ets:take(Table, key(Pairs, Key));
        _ -> ets:lookup(Table, key(Pairs, Key))
    end,
    move(Each, Table, Load, {Done + 1, Next}, Calls).

%% Removals of all objects of a client's share and puts of them in turns.
roll(_, _, _, Calls, Calls) -> ok;
roll({Number, Clients} = Who, Table, {Keys, Pairs} = Load, Done, Calls) ->
    Share = Keys div 2 div Clients,
    Key = 2 * (Done rem Share * ?STEP rem Share * Clients + Number - 1),
    case Done div Share rem 2 of
        0 -> [_] = ets:take(Table, key(Pairs, Key));
        1 -> true = ets:insert(Table, object(Pairs, Key))
    end,
    roll(Who, Table, Load, Done + 1, Calls).

%% Reads the objects whose keys are above one number and not above another one, one after the other. Others may edit in between: the objects need not be
%% those of one state.
range(Table, Key, Last) ->
    case ets:next(Table, Key) of
        Next when is_integer(Next), Next =< Last ->
            _ = ets:lookup(Table, Next),
            range(Table, Next, Last);
        _ -> ok
    end.
