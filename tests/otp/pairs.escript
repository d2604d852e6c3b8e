#!/usr/bin/env escript
%% Random terms of the profile in pairs, each with its byte code by an encoder of its own and the order that Erlang gives them.
%% A line is: the first code, the second code, and less, equal or greater.

main([Count]) ->
    rand:seed(exsss, {2026, 11, 26}),
    io:setopts([{encoding, latin1}]),
    lists:foreach(fun(_) -> pair() end, lists:seq(1, list_to_integer(Count))).

pair() ->
    A = term(4),
    B = case rand:uniform(6) of
        1 -> A;
        _ -> term(4)
    end,
    Order = if
        A < B -> less;
        A > B -> greater;
        true -> equal
    end,
    io:format("~s ~s ~s~n", [hex(code(A)), hex(code(B)), Order]).

term(0) -> leaf();
term(N) ->
    case rand:uniform(6) of
        1 -> list_to_tuple([term(N - 1) || _ <- lists:seq(1, rand:uniform(4) - 1)]);
        2 -> [term(N - 1) || _ <- lists:seq(1, rand:uniform(4) - 1)];
        3 -> [term(N - 1) | term(N - 1)];
        _ -> leaf()
    end.

leaf() ->
    case rand:uniform(5) of
        1 -> rand:uniform(5) - 3;
        2 -> edge(rand:uniform(8));
        3 -> list_to_atom([letter() || _ <- lists:seq(1, rand:uniform(4) - 1)]);
        4 -> list_to_binary([byte() || _ <- lists:seq(1, rand:uniform(5) - 1)]);
        5 -> []
    end.

edge(1) -> -9223372036854775808;
edge(2) -> 9223372036854775807;
edge(3) -> -257;
edge(4) -> -256;
edge(5) -> 255;
edge(6) -> 256;
edge(7) -> rand:uniform(1 bsl 62);
edge(8) -> -rand:uniform(1 bsl 40).

letter() -> lists:nth(rand:uniform(6), [0, $a, $b, $z, 16#e9, 16#1f600]).

byte() -> lists:nth(rand:uniform(5), [0, 1, $a, 254, 255]).

code(N) when is_integer(N), N >= 0 -> B = digits(N), [16#20 + byte_size(B), B];
code(N) when is_integer(N) -> B = digits(-N - 1), [16#1f - byte_size(B), << <<(255 - X)>> || <<X>> <= B >>];
code(A) when is_atom(A) -> [16#30, escaped(atom_to_binary(A, utf8))];
code(T) when is_tuple(T) -> [16#40, <<(tuple_size(T)):32>>, [code(X) || X <- tuple_to_list(T)]];
code([]) -> [16#60];
code([H | T]) -> [16#70, code(H), code(T)];
code(B) when is_binary(B) -> [16#80, escaped(B)].

digits(0) -> <<>>;
digits(N) -> binary:encode_unsigned(N).

escaped(B) -> [binary:replace(B, <<0>>, <<0, 255>>, [global]), 0, 0].

hex(Code) -> [io_lib:format("~2.16.0b", [X]) || <<X>> <= iolist_to_binary(Code)].
