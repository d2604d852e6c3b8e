#!/usr/bin/env escript
%% Term texts, read by the proved reader and by Erlang.
%%   texts.escript make COUNT     writes so many terms in a random spelling, each once more with an edit, and a row for each difference
%%                                of docs/FORMATS.md. A line is: term, edit or row; =, the text; the term or the row's number.
%%   texts.escript compare FILE   takes these lines with the reader's answer behind each, and lets Erlang read the same texts.
-mode(compile).

main(["make", Count]) ->
    rand:seed(exsss, {2026, 11, 27}),
    io:setopts([{encoding, latin1}]),
    lists:foreach(fun(_) -> make() end, lists:seq(1, list_to_integer(Count))),
    [line("row", Text, integer_to_binary(Number)) || {Number, {_, Text, _, _}} <- numbered(rows())];
main(["compare", File]) ->
    io:setopts([{encoding, unicode}]),
    {ok, Content} = file:read_file(File),
    Lines = binary:split(Content, <<"\n">>, [global, trim]),
    report([compared(binary:split(Line, <<" ">>, [global])) || Line <- Lines]).

make() ->
    Term = term(4),
    Text = unicode:characters_to_binary(spell(Term)),
    line("term", Text, binary:encode_hex(term_to_binary(Term))),
    line("edit", edited(Text), <<"none">>).

line(Sort, Text, About) -> io:format("~s =~s ~s~n", [Sort, binary:encode_hex(Text), About]).

numbered(List) -> lists:zip(lists:seq(1, length(List)), List).

%% ---- Random terms.

term(0) -> leaf();
term(N) ->
    case rand:uniform(6) of
        1 -> list_to_tuple(terms(N - 1));
        2 -> terms(N - 1);
        3 -> lists:foldr(fun(Head, Tail) -> [Head | Tail] end, term(N - 1), terms(N - 1));
        _ -> leaf()
    end.

terms(N) -> [term(N) || _ <- lists:seq(1, rand:uniform(4) - 1)].

leaf() ->
    case rand:uniform(6) of
        1 -> one_of([0, 7, -7, 255, 256, 9223372036854775807, -9223372036854775808]);
        2 -> rand:uniform(1 bsl rand:uniform(63)) - 1;
        3 -> one_of([a, ok, 'aB_9@', z1, 'and', maybe, 'end', '', 'A', '_', '1']);
        4 -> list_to_atom(points());
        5 -> list_to_binary([one_of([0, 9, 10, 34, 92, 97, 126, 127, 128, 255]) || _ <- points()]);
        6 -> points()
    end.

points() -> [point() || _ <- lists:seq(1, rand:uniform(5) - 1)].

point() -> one_of("abzAZ09_@ '\"\\\n\r\t\0\e\x{7f}\x{80}\x{a0}\x{e9}\x{7ff}\x{800}\x{20ac}\x{d7ff}\x{e000}\x{10000}\x{1d11e}\x{10ffff}").

one_of(List) -> lists:nth(rand:uniform(length(List)), List).

once_in(N) -> rand:uniform(N) =:= 1.

%% ---- A random spelling of a term, as characters.

spell(N) when is_integer(N) -> [[$- || N < 0 orelse N =:= 0 andalso once_in(3)], digits(abs(N))];
spell(Atom) when is_atom(Atom) ->
    case is_plain(atom_to_list(Atom)) andalso not once_in(3) of
        true -> atom_to_list(Atom);
        false -> quoted($', atom_to_list(Atom))
    end;
spell(Tuple) when is_tuple(Tuple) -> [${, series(tuple_to_list(Tuple), fun spell/1), $}];
spell(Binary) when is_binary(Binary) -> ["<<", series(parts(binary_to_list(Binary)), fun part/1), ">>"];
spell([]) -> one_of(["[]", "\"\"", [$[, blanks(), $]]]);
spell(List) ->
    case are_points(List) andalso not once_in(3) of
        true -> quoted($", List);
        false -> [$[, cells(List), $]]
    end.

digits(N) -> [["0" || once_in(5)], ["00" || once_in(9)], integer_to_list(N)].

%% Whether an atom is read without quotes by both.
is_plain([First | Others] = Text) ->
    First >= $a andalso First =< $z andalso lists:all(fun is_name_character/1, Others) andalso not erl_scan:reserved_word(list_to_atom(Text));
is_plain([]) -> false.

is_name_character(C) ->
    C >= $a andalso C =< $z orelse C >= $A andalso C =< $Z orelse C >= $0 andalso C =< $9 orelse C =:= $_ orelse C =:= $@.

are_points([C | Tail]) -> is_point(C) andalso are_points(Tail);
are_points(Tail) -> Tail =:= [].

is_point(C) -> is_integer(C) andalso (C >= 0 andalso C < 16#d800 orelse C > 16#dfff andalso C < 16#fffe orelse C > 16#ffff andalso C =< 16#10ffff).

blanks() ->
    case rand:uniform(6) of
        1 -> " ";
        2 -> one_of(["\t", "  ", " \t "]);
        _ -> ""
    end.

series(Items, Spell) -> [blanks(), lists:join([$,, blanks()], [[Spell(Item), blanks()] || Item <- Items])].

%% The heads of a list; a bar may stand behind any of them, with the rest of the list as its tail.
cells([Head | Tail]) -> [blanks(), spell(Head), blanks(), tail(Tail)].

tail([]) -> [bar([]) || once_in(6)];
tail([_ | _] = Tail) ->
    case once_in(4) of
        true -> bar(Tail);
        false -> [$, | cells(Tail)]
    end;
tail(Tail) -> bar(Tail).

bar(Tail) -> [$|, blanks(), spell(Tail), blanks()].

%% The bytes of a binary in parts, each a byte or some bytes of ASCII.
parts([]) -> [[] || once_in(6)];
parts([Byte | Others] = Bytes) ->
    {Shown, Rest} = lists:splitwith(fun(B) -> B < 128 end, Bytes),
    case Shown =:= [] orelse once_in(3) of
        true -> [Byte | parts(Others)];
        false -> [Shown | parts(Rest)]
    end.

part(Byte) when is_integer(Byte) -> digits(Byte);
part(Shown) -> quoted($", Shown).

quoted(Quote, Characters) -> [Quote, [character(Quote, C, rand:uniform(4)) || C <- Characters], Quote].

character(_, C, 1) -> hexadecimal(C);
character(Quote, C, N) ->
    Letter = proplists:get_value(C, [{$\\, $\\}, {$', $'}, {$", $"}, {$\n, $n}, {$\r, $r}, {$\t, $t}, {$\s, $s}]),
    case Letter =/= undefined andalso (N =:= 2 orelse C =:= Quote orelse C =:= $\\ orelse C =:= $\n) of
        true -> [$\\, Letter];
        false -> C
    end.

hexadecimal(C) ->
    Digits = lists:flatten(io_lib:format(one_of(["~.16b", "~.16B"]), [C])),
    ["\\x{", lists:nthtail(length(Digits) + rand:uniform(7 - length(Digits)) - 1, "000000"), Digits, "}"].

%% ---- A random byte put in, taken out or changed; or reserved words without quotes.

edited(Text) ->
    At = rand:uniform(byte_size(Text)) - 1,
    <<Front:At/binary, Byte, Rest/binary>> = Text,
    Other = one_of("  \t\n\r\0019azAZ_@{}[]<>,|\"'\\\\xnsb^.$#%:/+-()" ++ [127, 128, 160, 16#bf, 16#c3, 16#e9, 16#ed, 16#f4, 255]),
    case rand:uniform(8) of
        1 -> re:replace(Text, "'(and|end)'", "\\1", [global, {return, binary}]);
        N when N =< 3 -> <<Front/binary, Rest/binary>>;
        N when N =< 5 -> <<Front/binary, Other, Rest/binary>>;
        _ -> <<Front/binary, Other, Byte, Rest/binary>>
    end.

%% ---- What Erlang reads: {reads, Term}, or refuses.

erlang_term(Text) ->
    case tokens(Text, []) of
        {ok, Tokens} -> parsed(Tokens);
        refuses -> refuses
    end.

tokens(Text, Options) ->
    case unicode:characters_to_list(Text) of
        Characters when is_list(Characters) ->
            case erl_scan:string(Characters, {1, 1}, Options) of
                {ok, Tokens, _} -> {ok, Tokens};
                {error, _, _} -> refuses
            end;
        _ -> refuses
    end.

%% A dot behind the term is there in files of terms alone.
parsed(Tokens) ->
    Ended = case Tokens =/= [] andalso lists:last(Tokens) of
        {dot, _} -> Tokens;
        _ -> Tokens ++ [{dot, {1, 1}}]
    end,
    case erl_parse:parse_term(Ended) of
        {ok, Term} -> {reads, Term};
        {error, _} -> refuses
    end.

%% What Erlang would read if its reserved words were atoms.
with_reserved_words({ok, Tokens}) ->
    parsed([case Token of
        {Word, Place} -> case erl_scan:reserved_word(Word) of true -> {atom, Place, Word}; false -> Token end;
        _ -> Token
    end || Token <- Tokens]);
with_reserved_words(refuses) -> refuses.

%% A text, and a printed one, with E000 in place of the code points FFFE and FFFF.
with_other_points(Text) ->
    Raw = re:replace(Text, <<16#ef, 16#bf, $[, 16#be, 16#bf, $]>>, <<16#e000/utf8>>, [global, {return, binary}]),
    Escaped = re:replace(Raw, "\\\\x\\{0*fff[ef]\\}", "\\\\x{e000}", [global, caseless, {return, binary}]),
    re:replace(Escaped, "6553[45]", "57344", [global, {return, binary}]).

%% ---- What was answered here: {reads, PrintedText} where the whole text was read, or a fault and its place. A text of which a part is
%% read is refused in a command at the byte behind that part.

answer(Text, [<<"read">>, Length, <<"=", Printed/binary>>]) ->
    case binary_to_integer(Length) of
        Size when Size =:= byte_size(Text) -> {reads, binary:decode_hex(Printed)};
        Size -> {'Syntax', Size}
    end;
answer(_, [Fault, Place]) -> {binary_to_atom(Fault), binary_to_integer(Place)}.

%% ---- The comparison. A verdict is what was found, or {wrong, ..}.

compared([Sort, <<"=", Hex/binary>>, About | Answer]) ->
    Text = binary:decode_hex(Hex),
    Here = answer(Text, Answer),
    Erlang = erlang_term(Text),
    case Sort of
        <<"term">> -> spelled({reads, binary_to_term(binary:decode_hex(About))}, Text, Erlang, Here);
        <<"edit">> -> broken(Text, Erlang, Here);
        <<"row">> -> row(lists:nth(binary_to_integer(About), rows()), Erlang, Here)
    end.

spelled(Made, _, Made, {reads, Printed} = Here) ->
    case erlang_term(Printed) of
        Made -> {"terms in a random spelling, read alike", 1};
        Other -> {wrong, Made, Other, Here}
    end;
spelled(_, Text, Erlang, Here) -> {wrong, Text, Erlang, Here}.

broken(_, refuses, {Fault, At}) when is_integer(At) -> {"broken texts, refused by both", Fault};
broken(Text, refuses, {reads, Printed} = Here) ->
    case [Name || {Name, {reads, _} = Term, Term} <- [
        {"reserved words", with_reserved_words(tokens(Text, [])), erlang_term(Printed)},
        {"the code points FFFE and FFFF", erlang_term(with_other_points(Text)), erlang_term(with_other_points(Printed))}]] of
        [Name | _] -> {"broken texts, read here alone", Name};
        [] -> {wrong, Text, refuses, Here}
    end;
broken(Text, {reads, _} = Erlang, {reads, Printed} = Here) ->
    case erlang_term(Printed) of
        Erlang -> {"broken texts, read alike", 1};
        Other -> {wrong, Text, {Erlang, Other}, Here}
    end;
broken(Text, Erlang, {'Syntax', At} = Here) ->
    case differences(Text) of
        [{Name, First, Last} | _] when First =< At, At =< Last -> {"broken texts, read by Erlang alone", Name};
        Others -> {wrong, Text, {Erlang, Others}, Here}
    end;
broken(Text, Erlang, Here) -> {wrong, Text, Erlang, Here}.

row({Name, _, Wanted, Here}, Erlang, Here) when Wanted =:= Erlang; Wanted =:= unknown -> {"rows", Name};
row(Row, Erlang, Here) -> {wrong, Row, Erlang, Here}.

report(Verdicts) ->
    Wrong = [Verdict || Verdict <- Verdicts, element(1, Verdict) =:= wrong],
    Found = lists:usort([element(1, Verdict) || Verdict <- Verdicts -- Wrong]),
    [report(Sort, [About || {Known, About} <- Verdicts, Known =:= Sort]) || Sort <- Found],
    [io:format("wrong: ~tp~nErlang: ~tp~nhere: ~tp~n", [Text, Erlang, Here]) || {wrong, Text, Erlang, Here} <- Wrong],
    io:format("~b texts, ~b wrong~n", [length(Verdicts), length(Wrong)]),
    %% Each of the six sorts must have come.
    halt(if Wrong =:= [], length(Found) =:= 6 -> 0; true -> 1 end).

report(Sort, Abouts) ->
    Names = lists:usort(Abouts),
    Counts = [io_lib:format("~ts ~b", [Name, length([1 || About <- Abouts, About =:= Name])]) || Name <- Names, Name =/= 1],
    io:format("~b ~ts~ts~n", [length(Abouts), Sort, [[": ", lists:join(", ", Counts)] || Counts =/= []]]).

%% ---- Where in a text that Erlang reads something stands that isn't read here: its name, its first byte and the one behind it, in order.

differences(Text) ->
    {ok, Tokens} = tokens(Text, [return, text]),
    found(none, placed(0, Tokens), 0).

placed(_, []) -> [];
placed(At, [Token | Tokens]) ->
    Text = erl_scan:text(Token),
    End = At + byte_size(unicode:characters_to_binary(Text)),
    [{erl_scan:category(Token), Text, Token, At, End} | placed(End, Tokens)].

%% `Before` is the token before that isn't white space, and `Inside` how many binaries are open.
found(_, [], _) -> [];
found(Before, [{Category, Text, Token, First, Last} | Tokens], Inside) ->
    Now = Inside + case Category of '<<' -> 1; '>>' -> -1; _ -> 0 end,
    Here = [{Name, First, Last} || Name <- [difference(Category, Text, Token, Before, Tokens, Now > 0)], Name =/= none],
    Next = case Category of white_space when Before =/= none -> Before; _ -> Category end,
    Here ++ found(Next, Tokens, Now).

difference(white_space, _, _, none, _, _) -> "blanks around a term";
difference(white_space, _, _, _, [], _) -> "blanks around a term";
difference(white_space, Text, _, _, _, _) -> first_of([{"other white space", lists:any(fun(C) -> C =/= $\s andalso C =/= $\t end, Text)}]);
difference(comment, _, _, _, _, _) -> "comments";
difference(float, _, _, _, _, _) -> "floats";
difference(char, _, _, _, _, _) -> "characters";
difference('+', _, _, _, _, _) -> "signs";
difference('-', _, _, _, [{Number, _, _, _, _} | _], Inside) when Number =:= integer; Number =:= float ->
    first_of([{"numbers in binaries", Inside}]);
difference('-', _, _, _, _, _) -> "signs";
difference('(', _, _, _, _, _) -> "parentheses";
difference('#', _, _, _, _, _) -> "maps";
difference(dot, _, _, _, _, _) -> "a dot behind a term";
difference(':', _, _, _, _, true) -> "sizes and types in binaries";
difference('/', _, _, _, _, true) -> "sizes and types in binaries";
difference(integer, Text, {_, _, N}, Before, _, Inside) ->
    first_of([{"bases and underscores", not lists:all(fun(C) -> C >= $0 andalso C =< $9 end, Text)},
        {"numbers in binaries", Inside andalso N > 255},
        {"integers past 64 bits", N > 1 bsl 63 orelse N =:= 1 bsl 63 andalso Before =/= '-'}]);
difference(string, _, _, string, _, _) -> "strings side by side";
difference(Quoted, [Quote | Text], {_, _, Value}, _, _, Inside) when Quote =:= $"; Quote =:= $' ->
    first_of([{"other escapes", has_other_escape(Text)},
        {"line ends between quotes", lists:member($\n, Text)},
        {"strings in binaries", Quoted =:= string andalso Inside andalso lists:any(fun(C) -> C > 127 end, Value)}]);
difference(atom, Text, _, _, _, _) -> first_of([{"letters past ASCII", lists:any(fun(C) -> C > 127 end, Text)}]);
difference(_, _, _, _, _, _) -> none.

first_of(Tests) -> hd([Name || {Name, true} <- Tests] ++ [none]).

has_other_escape([$\\, C | Text]) when C =:= $\\; C =:= $'; C =:= $"; C =:= $n; C =:= $r; C =:= $t; C =:= $s -> has_other_escape(Text);
has_other_escape([$\\, $x, ${ | Text]) ->
    {Digits, [_ | Rest]} = lists:splitwith(fun(C) -> C =/= $} end, Text),
    length(Digits) > 6 orelse has_other_escape(Rest);
has_other_escape([C | Text]) -> C =:= $\\ orelse has_other_escape(Text);
has_other_escape([]) -> false.

%% ---- Each difference by name: a text, what Erlang reads, and what is answered here.

rows() -> words() ++ here_alone() ++ numbers() ++ quotes() ++ binaries() ++ around() ++ forms() ++ sizes() ++ neither().

words() -> [{"reserved words", atom_to_binary(Word), refuses, {reads, <<"'", (atom_to_binary(Word))/binary, "'">>}} ||
    Word <- ['after', 'and', 'andalso', 'band', 'begin', 'bnot', 'bor', 'bsl', 'bsr', 'bxor', 'case', 'catch', 'cond', 'div', 'end', 'fun',
        'if', 'let', 'not', 'of', 'or', 'orelse', 'receive', 'rem', 'try', 'when', 'xor']] ++
    [{"reserved words", Word, in_25({reads, binary_to_atom(Word)}), {reads, <<"'", Word/binary, "'">>}} || Word <- [<<"else">>, <<"maybe">>]].

here_alone() -> [
    {"the code points FFFE and FFFF", <<"'\\x{fffe}'">>, in_25(refuses), {reads, <<$', 16#ef, 16#bf, 16#be, $'>>}},
    {"the code points FFFE and FFFF", <<$", 16#ef, 16#bf, 16#bf, $">>, in_25(refuses), {reads, <<"[65535]">>}}].

numbers() -> [
    {"floats", <<"1.5">>, {reads, 1.5}, {'Syntax', 1}},
    {"floats", <<"{-1.0e3}">>, {reads, {-1.0e3}}, {'Syntax', 3}},
    {"characters", <<"$a">>, {reads, $a}, {'Syntax', 0}},
    {"characters", <<"[$\\n]">>, {reads, "\n"}, {'Syntax', 1}},
    {"bases and underscores", <<"16#ff">>, {reads, 255}, {'Syntax', 2}},
    {"bases and underscores", <<"1_000">>, {reads, 1000}, {'Syntax', 1}},
    {"integers past 64 bits", <<"9223372036854775808">>, {reads, 1 bsl 63}, {'Syntax', 18}},
    {"integers past 64 bits", <<"-9223372036854775809">>, {reads, -1 - (1 bsl 63)}, {'Syntax', 19}},
    {"signs", <<"+1">>, {reads, 1}, {'Syntax', 0}},
    {"signs", <<"- 1">>, {reads, -1}, {'Syntax', 1}},
    {"signs", <<"-$a">>, {reads, -97}, {'Syntax', 1}}].

quotes() -> [{"other escapes", <<"'\\", Letter, "'">>, {reads, list_to_atom([C])}, {'Syntax', 2}} ||
        {Letter, C} <- [{$b, 8}, {$d, 127}, {$e, 27}, {$f, 12}, {$v, 11}, {$q, $q}, {$\n, $\n}]] ++ [
    {"other escapes", <<"\"\\^A\"">>, {reads, [1]}, {'Syntax', 2}},
    {"other escapes", <<"\"\\101\"">>, {reads, "A"}, {'Syntax', 2}},
    {"other escapes", <<"\"\\x41\"">>, {reads, "A"}, {'Syntax', 3}},
    {"other escapes", <<"\"\\x{0000041}\"">>, {reads, "A"}, {'Syntax', 10}},
    {"line ends between quotes", <<"\"a\nb\"">>, {reads, "a\nb"}, {'Syntax', 2}},
    {"line ends between quotes", <<"'a\nb'">>, {reads, 'a\nb'}, {'Syntax', 2}},
    {"strings side by side", <<"\"a\" \"b\"">>, {reads, "ab"}, {'Syntax', 3}},
    {"strings side by side", <<"{\"a\"\"b\"}">>, {reads, {"ab"}}, {'Syntax', 4}},
    {"triple quotes and sigils", <<"\"\"\"\na\n\"\"\"">>, in_25({reads, "\na\n"}), {'Syntax', 2}},
    {"triple quotes and sigils", <<"~\"a\"">>, in_25(refuses), {'Syntax', 0}}].

binaries() -> [
    {"strings in binaries", <<"<<\"\x{e9}\">>"/utf8>>, {reads, <<233>>}, {'Syntax', 3}},
    {"strings in binaries", <<"<<\"\\x{e9}\">>">>, {reads, <<233>>}, {'Syntax', 7}},
    {"strings in binaries", <<"<<\"\x{e9}\"/utf8>>"/utf8>>, {reads, <<195, 169>>}, {'Syntax', 3}},
    {"numbers in binaries", <<"<<256>>">>, {reads, <<0>>}, {'Syntax', 4}},
    {"numbers in binaries", <<"<<-1>>">>, {reads, <<255>>}, {'Syntax', 2}},
    {"sizes and types in binaries", <<"<<1:16>>">>, {reads, <<0, 1>>}, {'Syntax', 3}},
    {"sizes and types in binaries", <<"<<1:4>>">>, {reads, <<1:4>>}, {'Syntax', 3}},
    {"sizes and types in binaries", <<"<<1/integer>>">>, {reads, <<1>>}, {'Syntax', 3}},
    {"sizes and types in binaries", <<"<<\"a\":16>>">>, {reads, <<0, 97>>}, {'Syntax', 5}}].

around() -> [{"other white space", <<"{1,", Space/binary, "2}">>, {reads, {1, 2}}, {'Syntax', 3}} ||
        Space <- [<<"\n">>, <<"\r">>, <<"\f">>, <<"\v">>, <<0>>, <<16#80/utf8>>, <<16#a0/utf8>>]] ++ [
    {"comments", <<"{1,%2\n3}">>, {reads, {1, 3}}, {'Syntax', 3}},
    {"comments", <<"1%2">>, {reads, 1}, {'Syntax', 1}},
    {"blanks around a term", <<" 1">>, {reads, 1}, {'Syntax', 0}},
    {"blanks around a term", <<"1\t">>, {reads, 1}, {'Syntax', 1}},
    {"a dot behind a term", <<"1.">>, {reads, 1}, {'Syntax', 1}}].

forms() -> [
    {"letters past ASCII", <<"\x{e9}"/utf8>>, {reads, '\x{e9}'}, {'Syntax', 0}},
    {"letters past ASCII", <<"a\x{e9}"/utf8>>, {reads, 'a\x{e9}'}, {'Syntax', 1}},
    {"maps", <<"#{a=>1}">>, {reads, #{a => 1}}, {'Syntax', 0}},
    {"maps", <<"[#{}]">>, {reads, [#{}]}, {'Syntax', 1}},
    {"funs", <<"fun lists:map/2">>, {reads, fun lists:map/2}, {'Syntax', 3}},
    {"parentheses", <<"(1)">>, {reads, 1}, {'Syntax', 0}},
    {"parentheses", <<"{(a)}">>, {reads, {a}}, {'Syntax', 1}}].

%% A front, so many equal parts and an end.
many(Front, Part, Count, End) -> <<Front/binary, (binary:copy(Part, Count))/binary, End/binary>>.

nested(Levels) -> lists:foldl(fun(_, Term) -> [Term] end, [], lists:seq(2, Levels)).

sizes() ->
    Nested = fun(Levels) -> many(many(<<>>, <<"[">>, Levels, <<>>), <<"]">>, Levels, <<>>) end,
    Tuple = fun(Size) -> many(<<"{1">>, <<",1">>, Size - 1, <<"}">>) end,
    Name = fun(Size) -> binary:copy(<<"a">>, Size) end, [
    {"depth", Nested(64), {reads, nested(64)}, {reads, Nested(64)}},
    {"depth", Nested(65), {reads, nested(65)}, {'TooDeep', 64}},
    {"wide tuples", Tuple(120), {reads, erlang:make_tuple(120, 1)}, {reads, Tuple(120)}},
    {"wide tuples", Tuple(121), {reads, erlang:make_tuple(121, 1)}, {'TooWide', 240}},
    {"long atoms", Name(255), {reads, binary_to_atom(Name(255))}, {reads, Name(255)}},
    {"long atoms", Name(256), refuses, {'AtomTooLong', 255}}].

%% No terms for either: variables, and texts that are broken.
neither() -> [{"terms for neither", Text, refuses, {'Syntax', At}} || {Text, At} <- [
    {<<>>, 0}, {<<"X">>, 0}, {<<"_">>, 0}, {<<"[X]">>, 1}, {<<"?a">>, 0}, {<<"a:b">>, 1}, {<<"a b">>, 1}, {<<"--1">>, 1}, {<<"-a">>, 1},
    {<<"{1,}">>, 3}, {<<"[|1]">>, 1}, {<<"[1|2,3]">>, 4}, {<<"[1|2|3]">>, 4}, {<<"[1|]">>, 3}, {<<"'a">>, 2}, {<<"\"a">>, 2}, {<<"<<1">>, 3},
    {<<"<<a>>">>, 2}, {<<"<<1,>>">>, 4}, {<<"<<[1]>>">>, 2}, {<<"\"\\x{}\"">>, 4}, {<<"\"\\x{d800}\"">>, 8}, {<<"\"\\x{110000}\"">>, 9},
    {<<$', 255, $'>>, 1}, {<<$', 16#ed, 16#a0, 16#80, $'>>, 2}]].

%% What release 25 of Erlang answers, where others may answer otherwise.
in_25(Answer) ->
    case erlang:system_info(otp_release) of
        "25" -> Answer;
        _ -> unknown
    end.
