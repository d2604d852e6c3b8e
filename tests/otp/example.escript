#!/usr/bin/env escript
%% examples/calls.ca, written by hand as calls of a real `ets` table of the type `ordered_set`: prints what the program must print for that file.
%% `select_range` is a `select` with guards on the key, `batch` one with a limit, `more` one of the continuation that `ets` gave.
-mode(compile).

main([]) ->
    T = ets:new(fruit, [ordered_set]),
    io:put_chars("client 1\n"),
    say(5, fun() -> ets:insert(T, {apple, 5, red}) end),
    say(6, fun() -> ets:insert(T, {pear, 3, green}) end),
    say(7, fun() -> ets:insert(T, {fig, 12, violet}) end),
    say(8, fun() -> ets:insert(T, {fig, 10, violet}) end),
    say(9, fun() -> ets:insert_new(T, {plum, 7, blue}) end),
    say(10, fun() -> ets:insert_new(T, {pear, 99, yellow}) end),
    say(13, fun() -> ets:lookup(T, fig) end),
    say(14, fun() -> ets:lookup(T, cherry) end),
    say(15, fun() -> ets:member(T, plum) end),
    say(16, fun() -> ets:member(T, cherry) end),
    say(19, fun() -> ets:first(T) end),
    say(20, fun() -> ets:last(T) end),
    say(21, fun() -> ets:next(T, fig) end),
    say(22, fun() -> ets:next(T, grape) end),
    say(23, fun() -> ets:prev(T, pear) end),
    say(24, fun() -> ets:prev(T, apple) end),
    say(27, fun() -> ets:update_counter(T, apple, 2) end),
    say(28, fun() -> ets:update_counter(T, pear, {2, -1}) end),
    say(29, fun() -> ets:update_counter(T, fig, {2, -25, 0, 0}) end),
    say(30, fun() -> ets:update_counter(T, plum, [{2, 1}, {2, 10, 15, 15}, {2, -4}]) end),
    say(31, fun() -> ets:update_element(T, apple, {3, 'dark red'}) end),
    say(32, fun() -> ets:update_element(T, cherry, {3, black}) end),
    say(35, fun() -> ets:update_counter(T, cherry, 1) end),
    say(36, fun() -> ets:update_element(T, apple, {1, pear}) end),
    say(37, fun() -> ets:insert(T, apple) end),
    say(40, fun() -> ets:select(T, [{{'$1', '$2', '_'}, [{'>', '$2', 5}], [{{'$1', '$2'}}]}]) end),
    say(41, fun() -> ets:select(T, [{{'$1', '_', '_'}, [{'>=', '$1', b}, {'=<', '$1', pear}], ['$_']}]) end),
    {First, Continuation} = ets:select(T, [{{'$1', '_', '_'}, [], ['$1']}], 3),
    say(44, fun() -> {First, more} end),
    {Second, '$end_of_table'} = ets:select(Continuation),
    say(45, fun() -> {Second, '$end_of_table'} end),
    say(46, fun() -> ets:select('$end_of_table') end),
    say(49, fun() -> ets:delete(T, pear) end),
    say(50, fun() -> ets:delete(T, pear) end),
    say(51, fun() -> ets:take(T, fig) end),
    say(52, fun() -> ets:take(T, fig) end),
    io:put_chars("table\n"),
    [io:format("~w.~n", [Object]) || Object <- ets:tab2list(T)],
    io:format("end ~b~n", [ets:info(T, size)]).

%% A line's answer, behind its number in the file.
say(Line, Call) ->
    try Call() of
        Reply -> io:format("~b ~w~n", [Line, Reply])
    catch
        error:badarg -> io:format("~b error badarg~n", [Line])
    end.
