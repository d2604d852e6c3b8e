#!/usr/bin/env escript
%% clients.escript FILE..: command files on one public ordered_set of ets with write_concurrency, a process a file, all at once. Each process reads its own
%% file's lines as terms and carries them out; the replies and the table are printed as `ca run FILE..` prints them.
-mode(compile).

main(Files) ->
    Table = ets:new(table, [ordered_set, public, {write_concurrency, true}, {read_concurrency, true}]),
    Self = self(),
    Clients = [spawn_link(fun() -> Self ! {self(), replies(Table, File)} end) || File <- Files],
    Replies = [receive {Client, Said} -> Said end || Client <- Clients],
    Texts = [["client ", integer_to_list(Number), $\n, Said] || {Number, Said} <- lists:zip(lists:seq(1, length(Files)), Replies)],
    Objects = ets:tab2list(Table),
    End = ["table\n", [[show(Object), ".\n"] || Object <- Objects], "end ", integer_to_list(length(Objects)), $\n],
    ok = file:write_file("/dev/stdout", [Texts, End]).

%% A client's answers as text, each made as soon as it was given.
replies(Table, File) ->
    {ok, Content} = file:read_file(File),
    Lines = [Line || Line <- binary:split(Content, <<"\n">>, [global]), Line =/= <<>>],
    {Said, _} = lists:mapfoldl(fun({N, Line}, Last) ->
        {Reply, Next} = answer(Table, Last, binary:split(Line, <<" ">>)),
        {iolist_to_binary([integer_to_list(N), $\s, show_reply(Reply), $\n]), Next}
    end, never, lists:zip(lists:seq(1, length(Lines)), Lines)),
    Said.

answer(_, Last, [<<"more">>]) -> batch(case Last of '$end_of_table' -> Last; _ -> ets:select(Last) end);
answer(Table, Last, [Name, Text]) ->
    {ok, Tokens, _} = erl_scan:string("[" ++ binary_to_list(arguments(Name, Text)) ++ "]."),
    {ok, Terms} = erl_parse:parse_term(Tokens),
    case {Name, Terms} of
        {<<"batch">>, [Specification, Limit]} -> batch(ets:select(Table, Specification, Limit));
        _ -> {{reply, call(Table, Name, Terms)}, Last}
    end.

%% Two arguments are parted by a blank behind the last bracket of the first one; no other blank stands in these files.
arguments(Name, Text) when Name =:= <<"batch">>; Name =:= <<"update_counter">> -> binary:replace(Text, <<" ">>, <<",">>);
arguments(_, Text) -> Text.

batch('$end_of_table') -> {{reply, '$end_of_table'}, '$end_of_table'};
batch({Objects, '$end_of_table'}) -> {{batch, Objects, <<"'$end_of_table'">>}, '$end_of_table'};
batch({Objects, Continuation}) -> {{batch, Objects, <<"more">>}, Continuation}.

call(Table, <<"insert">>, [Object]) -> ets:insert(Table, Object);
call(Table, <<"insert_new">>, [Object]) -> ets:insert_new(Table, Object);
call(Table, <<"lookup">>, [Key]) -> ets:lookup(Table, Key);
call(Table, <<"delete">>, [Key]) -> ets:delete(Table, Key);
call(Table, <<"update_counter">>, [Key, Step]) -> ets:update_counter(Table, Key, Step).

show_reply({reply, Term}) -> show(Term);
show_reply({batch, Objects, End}) -> [${, show(Objects), $,, End, $}].

show(Tuple) when is_tuple(Tuple) -> [${, lists:join($,, [show(Part) || Part <- tuple_to_list(Tuple)]), $}];
show(List) when is_list(List) -> [$[, lists:join($,, [show(Part) || Part <- List]), $]];
show(Binary) when is_binary(Binary) -> ["<<\"", Binary, "\">>"];
show(Integer) when is_integer(Integer) -> integer_to_list(Integer);
show(Atom) -> io_lib:format("~w", [Atom]).
