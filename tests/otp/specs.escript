#!/usr/bin/env escript
%% Match specifications, chosen by the proved crate and by Erlang.
%%   specs.escript make COUNT     writes so many random pairs of a specification and an object, every fourth specification with an edit, and
%%                                each row of the table of differences of docs/FORMATS.md. A line is: pair, edit or row; =, the
%%                                specification's text; =, the object's text; the row's number.
%%   specs.escript compare FILE   takes these lines with the crate's answer behind each, and lets Erlang choose.
-mode(compile).

main(["make", Count]) ->
    rand:seed(exsss, {2026, 11, 27}),
    io:setopts([{encoding, latin1}]),
    lists:foreach(fun make/1, lists:seq(1, list_to_integer(Count))),
    [line("row", Specification, Object, Number) || {Number, {_, Specification, Object, _, _}} <- numbered(rows())];
main(["compare", File]) ->
    {ok, Content} = file:read_file(File),
    report([compared(binary:split(Line, <<" ">>, [global])) || Line <- binary:split(Content, <<"\n">>, [global, trim])]).

make(Number) when Number rem 4 =:= 0 ->
    Object = object(),
    line("edit", edited(specification(Object)), Object, 0);
make(_) ->
    Object = object(),
    line("pair", specification(Object), Object, 0).

line(Sort, Specification, Object, Number) -> io:format("~s =~s =~s ~b~n", [Sort, text(Specification), text(Object), Number]).

text(Term) -> binary:encode_hex(unicode:characters_to_binary(io_lib:format("~tw", [Term]))).

numbered(List) -> lists:zip(lists:seq(1, length(List)), List).

one_of(List) -> lists:nth(rand:uniform(length(List)), List).

once_in(N) -> rand:uniform(N) =:= 1.

several(Make, Most) -> [Make() || _ <- lists:seq(1, rand:uniform(Most + 1) - 1)].

%% ---- Random objects: small integers, so that no value has over 64 bits.

object() -> list_to_tuple([term(2) || _ <- lists:seq(1, rand:uniform(4))]).

term(0) -> leaf();
term(N) ->
    case rand:uniform(7) of
        1 -> list_to_tuple(several(fun() -> term(N - 1) end, 3));
        2 -> several(fun() -> term(N - 1) end, 3);
        3 -> [term(N - 1) | term(N - 1)];
        _ -> leaf()
    end.

leaf() -> one_of([0, 1, 2, 3, -1, -7, 12, a, b, true, false, '_x', '$x', '$00', '$01', <<>>, <<1, 2>>, <<"ab">>, [], {}]).

%% ---- Random specifications whose heads often fit the object.

specification(Object) -> [clause(Object) || _ <- lists:seq(1, rand:uniform(3))].

clause(Object) ->
    Head = head(Object),
    Variables = [Name || Name <- names(Head), is_variable(Name)],
    {Head, several(fun() -> guard(Variables) end, 2), [expression(Variables, 2)]}.

head(Object) ->
    case rand:uniform(8) of
        1 -> one_of(['_', '$0', '$7', '$99']);
        2 -> pattern(list_to_tuple([term(1) || _ <- lists:seq(1, rand:uniform(4))]), 3);
        _ -> pattern(Object, 3)
    end.

%% A part of an object with variables and '_' in the place of some parts.
pattern(Term, N) ->
    case rand:uniform(5) of
        1 -> '_';
        K when K =< 3 -> one_of(['$0', '$1', '$2', '$3', '$10', '$99']);
        4 when is_tuple(Term) -> list_to_tuple([pattern(Element, N) || Element <- tuple_to_list(Term)]);
        4 when is_list(Term), Term =/= [] -> [pattern(hd(Term), N) | pattern(tl(Term), N)];
        5 when is_tuple(Term), N > 0 -> list_to_tuple([pattern(Element, N - 1) || Element <- tuple_to_list(Term)]);
        _ -> case once_in(6) of true -> leaf(); false -> Term end
    end.

names(Tuple) when is_tuple(Tuple) -> lists:append([names(Element) || Element <- tuple_to_list(Tuple)]);
names([Head | Tail]) -> names(Head) ++ names(Tail);
names(Atom) when is_atom(Atom) -> [Atom];
names(_) -> [].

is_variable(Name) -> lists:member(Name, ['$0', '$1', '$2', '$3', '$5', '$7', '$10', '$99']).

%% A guard: most have a truth value.
guard(Variables) ->
    case rand:uniform(8) of
        1 -> expression(Variables, 1);
        2 -> {one_of(['andalso', 'orelse']), truth(Variables, 2), any(Variables, 2)};
        _ -> truth(Variables, 3)
    end.

%% An expression without operators.
expression(Variables, N) when N > 0 ->
    case rand:uniform(7) of
        1 -> {list_to_tuple(several(fun() -> expression(Variables, N - 1) end, 3))};
        2 -> several(fun() -> expression(Variables, N - 1) end, 3);
        3 -> [expression(Variables, N - 1) | expression(Variables, N - 1)];
        4 -> {const, term(2)};
        _ -> expression(Variables, 0)
    end;
expression(Variables, _) -> one_of(['$_', '$$', a, true, false, 1, 2, -7, [], <<"ab">>, '_', '$00', '$x'] ++ Variables ++ Variables ++ Variables).

any(Variables, N) when N > 0 ->
    case rand:uniform(4) of
        1 -> number(Variables, N - 1);
        2 -> truth(Variables, N - 1);
        3 -> part(Variables, N - 1);
        _ -> expression(Variables, N)
    end;
any(Variables, _) -> expression(Variables, 1).

%% An operator that picks a part.
part(Variables, N) ->
    case rand:uniform(3) of
        1 -> {element, number(Variables, N), tuple(Variables, N)};
        K -> {lists:nth(K, ['', hd, tl]), any(Variables, N)}
    end.

tuple(Variables, N) -> case once_in(4) of true -> any(Variables, N); false -> one_of(['$_', {const, {a, 2}}, {{1, '$_'}}]) end.

%% An operator of a truth value. The last argument of andalso and orelse is one here: inside another operator Erlang doesn't ask for it.
truth(Variables, N) when N > 0 ->
    case rand:uniform(6) of
        1 -> {one_of([is_atom, is_integer, is_number, is_tuple, is_list, is_binary]), any(Variables, N - 1)};
        2 -> {one_of(['and', 'or', 'xor']), truth_or_other(Variables, N - 1), truth_or_other(Variables, N - 1)};
        3 -> {one_of(['andalso', 'orelse']), truth_or_other(Variables, N - 1), truth(Variables, N - 1)};
        4 -> {'not', truth_or_other(Variables, N - 1)};
        5 -> {one_of(['>', '>=', '<', '=<', '==', '=:=', '/=', '=/=']), number(Variables, N - 1), number(Variables, N - 1)};
        6 -> {one_of(['>', '>=', '<', '=<', '==', '=:=', '/=', '=/=']), any(Variables, N - 1), any(Variables, N - 1)}
    end;
truth(Variables, _) -> one_of([true, true, false, {'==', expression(Variables, 0), expression(Variables, 0)}]).

truth_or_other(Variables, N) -> case once_in(5) of true -> any(Variables, N); false -> truth(Variables, N) end.

%% An operator of a number, mostly of numbers.
number(Variables, N) when N > 0 ->
    case rand:uniform(6) of
        K when K =< 3 -> {one_of(['+', '-', '*', 'div', 'rem', 'band', 'bor', 'bxor']), number(Variables, N - 1), number(Variables, N - 1)};
        4 -> {one_of([abs, 'bnot']), number(Variables, N - 1)};
        5 -> {one_of([length, size, byte_size]), any(Variables, N - 1)};
        6 -> any(Variables, N - 1)
    end;
number(Variables, _) -> one_of([0, 1, 2, 3, -1, -7, 12, {length, '$$'}, {size, '$_'}, {element, 1, '$_'}] ++ Variables).

%% ---- Edits: one part of a specification is replaced, or dropped.

edited(Specification) ->
    case rand:uniform(5) of
        1 -> one_of([a, 1, {}, [a | Specification], Specification ++ [one_of([{}, {a, b}, {'_', []}, {'_', [], ['$_'], x}, []])], Specification ++ z]);
        _ -> edited(Specification, rand:uniform(count(Specification)) - 1)
    end.

count(Tuple) when is_tuple(Tuple) -> 1 + lists:sum([count(Element) || Element <- tuple_to_list(Tuple)]);
count([Head | Tail]) -> 1 + count(Head) + count(Tail);
count(_) -> 1.

%% With the part at this place, in reading order, replaced.
edited(Term, 0) -> replaced(Term);
edited([Head | Tail], At) ->
    case count(Head) of
        Size when At - 1 < Size -> [edited(Head, At - 1) | Tail];
        Size -> [Head | edited(Tail, At - 1 - Size)]
    end;
edited(Tuple, At) -> list_to_tuple(edited_elements(tuple_to_list(Tuple), At - 1)).

edited_elements([Element | Elements], At) ->
    case count(Element) of
        Size when At < Size -> [edited(Element, At) | Elements];
        Size -> [Element | edited_elements(Elements, At - Size)]
    end.

replaced(Tuple) when tuple_size(Tuple) > 1 ->
    case rand:uniform(3) of
        1 -> erlang:delete_element(rand:uniform(tuple_size(Tuple)), Tuple);
        2 -> erlang:append_element(Tuple, one_of([1, true, '$1']));
        3 -> other()
    end;
replaced(_) -> other().

other() -> one_of(['$5', '$1', {}, {a}, {1, 2}, {foo, 1}, {const}, {const, 1, 2}, {{a, '$1'}}, {hd, '$_'}, [a | b], [], 1, <<>>, a, '_', true]).

%% ---- What Erlang chooses: {chosen, Results} or refused.

erlang_choice(Specification, Object) ->
    try ets:match_spec_compile(Specification) of
        Compiled -> {chosen, ets:match_spec_run([Object], Compiled)}
    catch
        error:badarg -> refused
    end.

%% What the crate answered: {chosen, Results}, or {refused, Clause, Why}.
answer([<<"none">>]) -> {chosen, []};
answer([<<"result">>, <<"=", Text/binary>>]) -> {chosen, [erlang_term(binary:decode_hex(Text))]};
answer([<<"fault">>, Clause, Why]) -> {refused, binary_to_integer(Clause), binary_to_atom(Why)};
answer(Other) -> {wrong, Other}.

erlang_term(Text) ->
    {ok, Tokens, _} = erl_scan:string(unicode:characters_to_list(Text) ++ "."),
    {ok, Term} = erl_parse:parse_term(Tokens),
    Term.

%% ---- The comparison. A verdict is what was found, or {wrong, ..}.

compared([Sort, <<"=", First/binary>>, <<"=", Second/binary>>, Number | Answer]) ->
    Specification = erlang_term(binary:decode_hex(First)),
    Object = erlang_term(binary:decode_hex(Second)),
    Erlang = erlang_choice(Specification, Object),
    Here = answer(Answer),
    case Sort of
        <<"row">> -> row(lists:nth(binary_to_integer(Number), rows()), Erlang, Here);
        <<"pair">> -> alike(Specification, Object, Erlang, Here);
        <<"edit">> -> broken(Specification, Object, Erlang, Here)
    end.

alike(_, _, {chosen, Results}, {chosen, Results}) -> {"pairs, chosen alike", if Results =:= [] -> "nothing"; true -> "a result" end};
alike(Specification, Object, Erlang, Here) -> {wrong, {Specification, Object}, Erlang, Here}.

broken(Specification, Object, refused, {refused, _, Why} = Here) ->
    case Why =:= 'NotAList' orelse is_list(Specification) of
        true -> {"broken specifications, refused by both", Why};
        false -> {wrong, {Specification, Object}, refused, Here}
    end;
broken(Specification, Object, {chosen, Results} = Erlang, {chosen, Results}) -> alike(Specification, Object, Erlang, {chosen, Results});
broken(Specification, Object, Erlang, Here) ->
    case [Name || {Name, Differs} <- differences(), Differs(Specification, Erlang, Here)] of
        [Name | _] -> {"broken specifications, a row of the table", Name};
        [] -> {wrong, {Specification, Object}, Erlang, Here}
    end.

row({Name, _, _, Wanted, Here}, Wanted, Here) -> {"rows", Name};
row(Row, Erlang, Here) -> {wrong, Row, Erlang, Here}.

%% Where a specification that Erlang takes is refused here, or chooses something else: the row's name and when it holds.
differences() ->
    [{"the empty specification", fun(Specification, Erlang, Here) -> Specification =:= [] andalso Erlang =:= refused andalso Here =:= {chosen, []} end},
     {"heads that are no tuple", fun(Specification, Erlang, Here) -> is_choice(Erlang) andalso is_fault(Here, ['BadHead'])
        andalso lists:any(fun(Head) -> not is_tuple(Head) end, [element(1, Clause) || Clause <- Specification]) end},
     {"bodies of several expressions", fun(Specification, Erlang, Here) -> is_choice(Erlang) andalso is_fault(Here, ['BadBody'])
        andalso lists:any(fun(Body) -> length(Body) > 1 end, bodies(Specification)) end},
     {"operators in bodies", fun(Specification, Erlang, Here) -> is_choice(Erlang) andalso is_fault(Here, ['BadBody'])
        andalso lists:any(fun has_call/1, bodies(Specification)) end},
     {"numbers of arguments", fun(Specification, Erlang, Here) -> is_choice(Erlang) andalso is_fault(Here, ['BadGuard'])
        andalso has_other_count(Specification) end},
     {"last arguments of andalso and orelse", fun(Specification, Erlang, Here) -> is_choice(Erlang) andalso is_choice(Here)
        andalso has_inner_short(Specification) end},
     {"variables in constants", fun(Specification, Erlang, Here) -> is_choice(Erlang) andalso is_choice(Here)
        andalso lists:member('$99', names(Specification)) andalso lists:any(fun is_variable/1, names(constants(Specification))) end}].

is_choice({chosen, _}) -> true;
is_choice(_) -> false.

is_fault({refused, _, Why}, Whys) -> lists:member(Why, Whys);
is_fault(_, _) -> false.

bodies(Specification) -> [element(3, Clause) || Clause <- Specification].

%% Whether in an expression a tuple stands that is no {const,T} and no tuple of one tuple.
has_call({const, _}) -> false;
has_call({Tuple}) when is_tuple(Tuple) -> lists:any(fun has_call/1, tuple_to_list(Tuple));
has_call(Tuple) when is_tuple(Tuple) -> true;
has_call([Head | Tail]) -> has_call(Head) orelse has_call(Tail);
has_call(_) -> false.

%% Whether one of and, or, andalso, orelse has another number of arguments than two, or one of + and - has one.
has_other_count({Sign, _}) when Sign =:= '+'; Sign =:= '-' -> true;
has_other_count(Tuple) when is_tuple(Tuple) ->
    tuple_size(Tuple) =/= 3 andalso tuple_size(Tuple) > 1 andalso lists:member(element(1, Tuple), ['and', 'or', 'andalso', 'orelse'])
        orelse lists:any(fun has_other_count/1, tuple_to_list(Tuple));
has_other_count([Head | Tail]) -> has_other_count(Head) orelse has_other_count(Tail);
has_other_count(_) -> false.

%% Whether andalso or orelse stands inside another operator.
has_inner_short(Specification) -> lists:any(fun(Guard) -> inner_short(false, Guard) end, lists:append([element(2, Clause) || Clause <- Specification])).

inner_short(_, {const, _}) -> false;
inner_short(true, {Name, _, _}) when Name =:= 'andalso'; Name =:= 'orelse' -> true;
inner_short(_, Tuple) when is_tuple(Tuple) -> lists:any(fun(Part) -> inner_short(true, Part) end, tuple_to_list(Tuple));
inner_short(Inside, [Head | Tail]) -> inner_short(Inside, Head) orelse inner_short(Inside, Tail);
inner_short(_, _) -> false.

%% The terms of all {const,T}.
constants({const, Term}) -> [Term];
constants(Tuple) when is_tuple(Tuple) -> lists:append([constants(Part) || Part <- tuple_to_list(Tuple)]);
constants([Head | Tail]) -> constants(Head) ++ constants(Tail);
constants(_) -> [].

%% ---- The table of differences: its name, a specification, an object, Erlang's choice and the one here.

rows() ->
    Object = {1, {2, [3]}, <<1, 2>>, true},
    [{"the empty specification", [], Object, refused, {chosen, []}},
     {"heads that are no tuple", [{a, [], ['$_']}], Object, {chosen, []}, {refused, 1, 'BadHead'}},
     {"heads that are no tuple", [{[], [], ['$_']}], Object, {chosen, []}, {refused, 1, 'BadHead'}},
     {"variables from '$100' on", [{{'$100', '_', '_', '_'}, [], ['$100']}], Object, {chosen, [1]}, {chosen, []}},
     {"variables from '$100' on", [{'_', [], ['$100']}], Object, refused, {chosen, ['$100']}},
     {"bodies of several expressions", [{'_', [], [x, y]}], Object, {chosen, [y]}, {refused, 1, 'BadBody'}},
     {"operators in bodies", [{{'$1', '_', '_', '_'}, [], [{'+', '$1', 1}]}], Object, {chosen, [2]}, {refused, 1, 'BadBody'}},
     {"numbers of arguments", [{'_', [{'and', true, true, true}], [x]}], Object, {chosen, [x]}, {refused, 1, 'BadGuard'}},
     {"numbers of arguments", [{'_', [{'orelse', true}], [x]}], Object, {chosen, [x]}, {refused, 1, 'BadGuard'}},
     {"numbers of arguments", [{'_', [{'==', {'-', 2}, -2}], [x]}], Object, {chosen, [x]}, {refused, 1, 'BadGuard'}},
     {"last arguments of andalso and orelse", [{'_', [{'==', {'andalso', true, 1}, 1}], [x]}], Object, {chosen, [x]}, {chosen, []}},
     {"variables in constants", [{{'$25', '$5', '_', '_'}, [], [{{'$25', {const, '$5'}}}]}], Object, {chosen, [{1, '$0'}]}, {chosen, [{1, '$5'}]}},
     {"tuple_size", [{'_', [{'==', {tuple_size, '$_'}, 4}], [x]}], Object, refused, {chosen, [x]}},
     {"other functions", [{'_', [{is_pid, '$_'}], [x]}], Object, {chosen, []}, {refused, 1, 'BadGuard'}},
     {"other functions", [{'_', [], [{self}]}], Object, {chosen, [self()]}, {refused, 1, 'BadBody'}},
     {"integers past 64 bits", [{'_', [{'>', {'+', 9223372036854775807, 1}, 0}], [x]}], Object, {chosen, [x]}, {chosen, []}}].

report(Verdicts) ->
    Wrong = [Verdict || Verdict <- Verdicts, element(1, Verdict) =:= wrong],
    Found = lists:usort([element(1, Verdict) || Verdict <- Verdicts -- Wrong]),
    [report(Sort, [About || {Known, About} <- Verdicts, Known =:= Sort]) || Sort <- Found],
    [io:format("wrong: ~0tp~nErlang: ~0tp~nhere: ~0tp~n", [Pair, Erlang, Here]) || {wrong, Pair, Erlang, Here} <- Wrong],
    io:format("~b specifications, ~b wrong~n", [length(Verdicts), length(Wrong)]),
    %% Each of the four sorts must have come.
    halt(if Wrong =:= [], length(Found) =:= 4 -> 0; true -> 1 end).

report(Sort, Abouts) ->
    Counts = [io_lib:format("~ts ~b", [Name, length([1 || About <- Abouts, About =:= Name])]) || Name <- lists:usort(Abouts)],
    io:format("~b ~ts: ~ts~n", [length(Abouts), Sort, lists:join(", ", Counts)]).
