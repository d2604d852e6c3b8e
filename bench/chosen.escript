#!/usr/bin/env escript
%% A command file of inserts and selects on an ordered_set of ets: each line is read as a term and carried out, and the replies and the table are
%% printed, as `ca run FILE` prints them.
-mode(compile).

main([File]) ->
    {ok, Content} = file:read_file(File),
    Table = ets:new(table, [ordered_set]),
    Lines = [Line || Line <- binary:split(Content, <<"\n">>, [global]), Line =/= <<>>],
    Replies = [answer(Table, N, Line) || {N, Line} <- lists:zip(lists:seq(1, length(Lines)), Lines)],
    Objects = ets:tab2list(Table),
    End = ["table\n", [[show(Object), ".\n"] || Object <- Objects], "end ", integer_to_list(length(Objects)), $\n],
    ok = file:write_file("/dev/stdout", ["client 1\n", Replies, End]).

answer(Table, N, Line) ->
    [Name, Rest] = binary:split(Line, <<" ">>),
    {ok, Tokens, _} = erl_scan:string(binary_to_list(Rest) ++ "."),
    {ok, Term} = erl_parse:parse_term(Tokens),
    [integer_to_list(N), $\s, show(call(Table, Name, Term)), $\n].

call(Table, <<"insert">>, Object) -> ets:insert(Table, Object);
call(Table, <<"select">>, Specification) -> ets:select(Table, Specification).

show(Tuple) when is_tuple(Tuple) -> [${, lists:join($,, [show(Part) || Part <- tuple_to_list(Tuple)]), $}];
show(List) when is_list(List) -> [$[, lists:join($,, [show(Part) || Part <- List]), $]];
show(Binary) when is_binary(Binary) -> io_lib:format("~p", [Binary]);
show(Term) -> io_lib:format("~w", [Term]).
