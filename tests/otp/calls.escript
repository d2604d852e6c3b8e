#!/usr/bin/env escript
%% Command files of all calls, and what a real `ets` table of the type `ordered_set` answers.
%%   calls.escript COUNT SEED FOLDER   writes so many command files, 1, 2 and so on, into FOLDER, and beside each, as N.stdout, what a program must print.
%% The replies are those of `ets` itself. What is this project's own is told from what `ets` answers: the error `range`, where a value has more than 64
%% bits; that the other arguments are checked before the key is looked for; that `insert` and `insert_new` take one object, where those of `ets` take a list
%% of them, too; `select_range`, which is a `select` of a table of the objects between the keys; and `batch` and `more`, which are `select` with a limit and
%% of the continuation that it gave.
-mode(compile).

main([Count, Seed, Folder]) ->
    rand:seed(exsss, {2026, 11, list_to_integer(Seed)}),
    [file(filename:join(Folder, integer_to_list(Number))) || Number <- lists:seq(1, list_to_integer(Count))].

file(Name) ->
    Commands = [{insert, object()} || _ <- lists:seq(1, rand:uniform(12) - 1)] ++ [command() || _ <- lists:seq(1, rand:uniform(40) - 1)],
    Table = ets:new(table, [ordered_set]),
    Lines = lists:zip(lists:seq(1, length(Commands)), Commands),
    {Answers, _} = lists:mapfoldl(fun({N, C}, Continuation) ->
        {Reply, Next} = answer(Table, Continuation, C),
        {[integer_to_list(N), $\s, show_reply(Reply), $\n], Next}
    end, never, Lines),
    Objects = ets:tab2list(Table),
    ets:delete(Table),
    End = ["table\n", [[show(O), ".\n"] || O <- Objects], "end ", integer_to_list(length(Objects)), $\n],
    ok = file:write_file(Name, [[show_command(C), $\n] || C <- Commands]),
    ok = file:write_file(Name ++ ".stdout", ["client 1\n", Answers, End]).

%% ---- Random commands: few keys, so that calls meet, and numbers at the ends of 64 bits.

command() ->
    case rand:uniform(26) of
        N when N =< 5 -> {insert, object()};
        6 -> {insert_new, object()};
        7 -> {lookup, key()};
        8 -> {member, key()};
        9 -> {delete, key()};
        10 -> {take, key()};
        N when N =< 12 -> {update_counter, key(), operations()};
        N when N =< 14 -> {update_element, key(), element()};
        15 -> {one_of([first, last])};
        N when N =< 17 -> {one_of([next, prev]), key()};
        N when N =< 19 -> {select, specification()};
        N when N =< 21 -> {select_range, key(), key(), specification()};
        N when N =< 23 -> {batch, specification(), limit()};
        _ -> {more}
    end.

limit() ->
    case rand:uniform(10) of
        1 -> one_of([0, -1, a, {1}, []]);
        _ -> rand:uniform(4)
    end.

specification() ->
    case rand:uniform(8) of
        1 -> one_of([a, 1, {}, [a], [{}], [{'_', []}], [{'_', a, ['$_']}], [{'_', [], []}], [{'_', [], a}],
            [{'_', [{foo, 1}], ['$_']}], [{'_', [{'>', 1}], ['$_']}], [{'_', [], ['$1']}], [{'_', [{'>', '$2', 1}], ['$_']}], [{'_', [], [{a}]}],
            [{'_', [], ['$_']} | a]]);
        _ -> [clause() || _ <- lists:seq(1, rand:uniform(2))]
    end.

clause() ->
    {Head, Variables} = one_of([
        {'_', []}, {'$1', ['$1']}, {{'$1'}, ['$1']}, {{'$1', '$2'}, ['$1', '$2']}, {{'$1', '_'}, ['$1']}, {{'$2', '$1', '_'}, ['$1', '$2']},
        {{'$1', '$1'}, ['$1']}, {{key(), '$1'}, ['$1']}, {{key(), '$1', '_'}, ['$1']}, {{key()}, []}, {{'$1', value()}, ['$1']}]),
    {Head, [guard(Variables) || _ <- lists:seq(1, max(0, rand:uniform(4) - 2))], [body(Variables)]}.

guard(Variables) ->
    Variable = one_of(Variables ++ ['$_']),
    case rand:uniform(5) of
        1 -> {is_integer, Variable};
        2 -> {is_atom, Variable};
        3 -> {'not', {is_tuple, Variable}};
        _ -> {one_of(['>', '<', '>=', '=<', '=:=', '/=']), Variable, {const, value()}}
    end.

body(Variables) ->
    Variable = one_of(Variables ++ ['$_']),
    one_of([Variable, Variable, '$_', '$$', {{Variable, '$_'}}, [Variable, a], [Variable | 1], {const, key()}, 7, a, <<"ab">>]).

object() ->
    case rand:uniform(20) of
        1 -> one_of([a, 7, {}, <<1>>, [], [a], [{1, a}], [{1, a}, {[1], b}], [{1, a}, 7], [{1, a} | b]]);
        _ -> list_to_tuple([key() | [value() || _ <- lists:seq(1, rand:uniform(5) - 1)]])
    end.

key() -> one_of([0, 1, -1, 255, 256, a, b, 'B c', {}, {1}, {1, 2}, {a}, [], [1], [1, 2], [1 | 2], [a, {1}], [[]], <<>>, <<0>>, <<"ab">>, 9223372036854775807]).

value() ->
    case rand:uniform(3) of
        1 -> key();
        _ -> number()
    end.

number() ->
    case rand:uniform(6) of
        1 -> one_of([9223372036854775807, 9223372036854775806, -9223372036854775808, -9223372036854775807]);
        2 -> one_of([1 bsl 62, -(1 bsl 62), (1 bsl 62) - 1]);
        _ -> rand:uniform(9) - 5
    end.

operations() ->
    case rand:uniform(8) of
        1 -> number();
        2 -> one_of([a, [a], {2}, {2, a}, {2, 1, 1}, {2, 1, a, 1}, {2, 1, 1, 1, 1}, [{2, 1} | a], [2], <<>>]);
        3 -> operation();
        4 -> operation();
        _ -> [operation() || _ <- lists:seq(1, rand:uniform(4) - 1)]
    end.

operation() ->
    case rand:uniform(2) of
        1 -> {position(), number()};
        2 -> {position(), number(), number(), number()}
    end.

position() -> one_of([0, 1, 2, 2, 2, 2, 3, 3, 3, 4, 5, 6, -1, 121, 9223372036854775807]).

element() ->
    case rand:uniform(8) of
        1 -> one_of([a, {2}, {a, 1}, {2, 1, 1}, [], {1, x}, {0, x}, {-1, x}]);
        _ -> {position(), value()}
    end.

one_of(List) -> lists:nth(rand:uniform(length(List)), List).

%% ---- The answers of `ets`.

%% The reply, and the client's continuation behind it: `never`, the end, or the limit with what `ets` gave.
answer(_, never, {more}) -> {{error, badarg}, never};
answer(_, '$end_of_table', {more}) -> {'$end_of_table', '$end_of_table'};
answer(_, {Limit, Continuation}, {more}) -> batch({Limit, Continuation}, Limit, fun() -> ets:select(Continuation) end);
answer(Table, Continuation, {batch, Specification, Limit}) -> batch(Continuation, Limit, fun() -> ets:select(Table, Specification, Limit) end);
answer(Table, Continuation, Command) -> {answer(Table, Command), Continuation}.

%% Where a specification fixes the key, `ets` tells a full batch as the last one; here a full batch is never told so.
batch(Continuation, Limit, Select) ->
    try Select() of
        '$end_of_table' -> {'$end_of_table', '$end_of_table'};
        {Results, '$end_of_table'} when length(Results) =:= Limit -> {{Results, more}, '$end_of_table'};
        {Results, '$end_of_table'} -> {{Results, '$end_of_table'}, '$end_of_table'};
        {Results, Next} -> {{Results, more}, {Limit, Next}}
    catch error:badarg -> {{error, badarg}, Continuation}
    end.

answer(_, {Insert, List}) when is_list(List), Insert =:= insert; is_list(List), Insert =:= insert_new -> {error, badarg};
answer(Table, {update_counter, Key, Operations}) -> counted(Table, Key, Operations, are_operations(Operations));
answer(Table, {update_element, Key, Element}) -> replaced(Table, Key, Element, is_element(Element));
answer(Table, {take, Key}) -> ets:take(Table, Key);
answer(Table, {select_range, Least, Greatest, Specification}) ->
    Between = ets:new(between, [ordered_set]),
    ets:insert(Between, [O || O <- ets:tab2list(Table), Least =< element(1, O), element(1, O) =< Greatest]),
    Reply = answer(Between, {select, Specification}),
    ets:delete(Between),
    Reply;
answer(Table, Command) ->
    [Call | Arguments] = tuple_to_list(Command),
    try apply(ets, Call, [Table | Arguments])
    catch error:badarg -> {error, badarg}
    end.

%% One operation after the other, since a value past 64 bits ends them here; else `ets` must answer the same for all at once.
counted(_, _, _, false) -> {error, badarg};
counted(Table, Key, Operations, true) ->
    Before = ets:lookup(Table, Key),
    case steps(Table, Key, if is_list(Operations) -> Operations; true -> [Operations] end, []) of
        {error, Fault} ->
            ets:delete(Table, Key),
            ets:insert(Table, Before),
            {error, Fault};
        Values ->
            After = ets:lookup(Table, Key),
            ets:insert(Table, Before),
            Reply = try ets:update_counter(Table, Key, Operations) catch error:badarg -> {error, badarg} end,
            After = ets:lookup(Table, Key),
            case {is_list(Operations), Before} of
                {true, []} -> {error, badarg} = Reply;
                {true, _} -> Values = Reply;
                {false, _} -> [Reply] = Values, Reply
            end
    end.

steps(_, _, [], Values) -> lists:reverse(Values);
steps(Table, Key, [Operation | Operations], Values) ->
    try ets:update_counter(Table, Key, Operation) of
        Value when Value > 9223372036854775807; Value < -9223372036854775808 -> {error, range};
        Value -> steps(Table, Key, Operations, [Value | Values])
    catch error:badarg -> {error, badarg}
    end.

are_operations(N) when is_integer(N) -> true;
are_operations([]) -> true;
are_operations([Operation | Operations]) -> is_operation(Operation) andalso are_operations_left(Operations);
are_operations(Operation) -> is_operation(Operation).

are_operations_left([]) -> true;
are_operations_left([Operation | Operations]) -> is_operation(Operation) andalso are_operations_left(Operations);
are_operations_left(_) -> false.

is_operation({P, I}) -> is_integer(P) andalso is_integer(I);
is_operation({P, I, T, V}) -> lists:all(fun is_integer/1, [P, I, T, V]);
is_operation(_) -> false.

replaced(_, _, _, false) -> {error, badarg};
replaced(Table, Key, Element, true) ->
    try ets:update_element(Table, Key, Element)
    catch error:badarg -> {error, badarg}
    end.

is_element({P, _}) -> is_integer(P) andalso P >= 1 andalso P =/= 1;
is_element(_) -> false.

%% ---- Texts.

show_command(Command) -> lists:join($\s, [atom_to_list(element(1, Command)) | [show(T) || T <- tl(tuple_to_list(Command))]]).

show_reply({error, Fault}) -> ["error ", atom_to_list(Fault)];
show_reply(Term) -> show(Term).

show(Tuple) when is_tuple(Tuple) -> [${, lists:join($,, [show(T) || T <- tuple_to_list(Tuple)]), $}];
show([]) -> "[]";
show(List) when is_list(List) -> [$[, cells(List), $]];
show(Binary) when is_binary(Binary) -> io_lib:format("~p", [Binary]);
show(Term) -> io_lib:format("~w", [Term]).

cells([Last]) -> show(Last);
cells([Head | Tail]) when is_list(Tail) -> [show(Head), $,, cells(Tail)];
cells([Head | Tail]) -> [show(Head), $|, show(Tail)].
