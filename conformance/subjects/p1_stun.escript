#!/usr/bin/env escript
%% -*- erlang -*-
%% erlang-p1-stun, the STUN of ejabberd, as a subject of levels 0 and 1: its stun_codec. It claims
%% RFC 5389. It never reads past MESSAGE-INTEGRITY, so it has no call for FINGERPRINT.
-include_lib("p1_stun/include/stun.hrl").
-mode(compile).
main(_) -> io:setopts([binary]), loop().
loop() ->
    case io:get_line("") of
        eof -> ok;
        L -> W = string:lexemes(string:trim(L), " "),
             A = try call(W) catch throw:X -> X; _:_ -> <<"refused">> end,
             io:put_chars([A, "\n"]), loop()
    end.
bin(<<"-">>) -> <<>>;
bin(H) -> binary:decode_hex(H).
hex(<<>>) -> <<"-">>;
hex(B) -> string:lowercase(binary:encode_hex(B)).
int(<<"0x", H/binary>>) -> binary_to_integer(H, 16);
int(D) -> binary_to_integer(D).
parsed(M) ->
    case stun_codec:decode(bin(M), datagram) of
        {ok, S} when is_record(S, stun) ->
            case stun_codec:version(S) of new -> S; old -> throw(<<"refused">>) end;
        _ -> throw(<<"refused">>)
    end.
class(response) -> "success"; class(C) -> atom_to_list(C).
classes(<<"success">>) -> response; classes(C) -> binary_to_existing_atom(C).
call([<<"reset">>]) -> <<"done">>;
call([<<"claims">>]) -> <<"rfc5389 raw-texts">>;
call([<<"read">>, M]) ->
    S = parsed(M), io_lib:format("~s 0x~3.16.0b 0x~24.16.0b", [class(S#stun.class), S#stun.method, S#stun.trid]);
call([<<"attribute">>, T, M]) -> S = parsed(M), shown(int(T), S);
call([<<"verify">>, K, M]) ->
    S = parsed(M),
    case S#stun.'MESSAGE-INTEGRITY' of
        undefined -> <<"none">>;
        _ -> case stun_codec:check_integrity(S, bin(K)) of true -> <<"sha1">>; false -> <<"refused">> end
    end;
call([<<"unknown">>, Types, M]) ->
    S = parsed(M), Known = [int(T) || T <- string:lexemes(Types, ","), T =/= <<"-">>],
    %% The codec has a list of what it knows: another one is left out.
    Own = [1, 6, 8, 9, 10, 12, 13, 16#12, 16#13, 16#14, 16#15, 16#16, 16#17, 16#19, 16#1a, 16#20],
    Missing = [T || T <- types(bin(M)), lists:member(T, Own), not lists:member(T, Known)],
    case {Known -- Own, Missing} of
        {[], []} -> list(lists:reverse(S#stun.unsupported));
        _ -> <<"lacks">>
    end;
call([<<"frame">>, <<"turn">>, B]) -> frame(bin(B));
call([<<"frame">>, <<"stun">>, B]) -> case bin(B) of <<1:2, _/bits>> -> <<"lacks">>; X -> frame(X) end;
call([<<"key">>, <<"sha1">>, U, R, P]) -> hex(crypto:hash(md5, [bin(U), $:, bin(R), $:, bin(P)]));
call([<<"begin">>, C, M, I]) -> hex(stun_codec:encode(#stun{class = classes(C), method = int(M), trid = int(I)}));
call([<<"add">>, M, T, V]) ->
    S = parsed(M), Bytes = bin(M),
    Out = stun_codec:encode(with(int(T), V, S)),
    %% it writes in an order of its own: only what keeps the earlier bytes is `add`
    N = size(Bytes) - 20,
    case {Bytes, Out} of
        {<<_:20/binary, B:N/binary>>, <<_:20/binary, B:N/binary, _/binary>>} -> hex(Out);
        _ -> <<"lacks">>
    end;
call([<<"sign">>, M, <<"sha1">>, K]) ->
    S = parsed(M), B = bin(M), Plain = stun_codec:encode(S),
    case Plain of B -> hex(stun_codec:encode(S, bin(K))); _ -> <<"lacks">> end;
call([<<"add-fingerprint">>, M]) -> hex(stun_codec:add_fingerprint(bin(M)));
call(_) -> <<"lacks">>.
frame(B) ->
    case stun_codec:decode(B, stream) of
        {ok, _, Tail} -> integer_to_binary(size(B) - size(Tail));
        more -> <<"more">>; empty -> <<"more">>; _ -> <<"refused">>
    end.
types(<<_:20/binary, Rest/binary>>) -> walk(Rest).
walk(<<T:16, L:16, Rest/binary>>) ->
    N = (L + 3) div 4 * 4,
    case Rest of <<_:N/binary, More/binary>> -> [T | walk(More)]; _ -> [T] end;
walk(_) -> [].
list([]) -> <<"none">>;
list(L) -> lists:join(",", [io_lib:format("0x~4.16.0b", [T]) || T <- L]).
text(undefined) -> <<"none">>;
text(B) -> hex(B).
address(undefined) -> <<"none">>;
address({A, P}) when size(A) == 8 -> io_lib:format("[~s]:~b", [inet:ntoa(A), P]);
address({A, P}) -> io_lib:format("~s:~b", [inet:ntoa(A), P]).
number(undefined) -> <<"none">>;
number(N) -> integer_to_binary(N).
shown(1, S) -> address(S#stun.'MAPPED-ADDRESS');
shown(6, S) -> text(S#stun.'USERNAME');
shown(8, S) -> text(S#stun.'MESSAGE-INTEGRITY');
shown(9, S) -> case S#stun.'ERROR-CODE' of undefined -> <<"none">>; {C, R} -> [integer_to_list(C), $:, hex(R)] end;
shown(16#0a, S) -> list(S#stun.'UNKNOWN-ATTRIBUTES');
shown(16#0c, S) -> number(S#stun.'CHANNEL-NUMBER');
shown(16#0d, S) -> number(S#stun.'LIFETIME');
shown(16#12, S) -> case lists:reverse(S#stun.'XOR-PEER-ADDRESS') of [] -> <<"none">>; [A | _] -> address(A) end;
shown(16#13, S) -> text(S#stun.'DATA');
shown(16#14, S) -> text(S#stun.'REALM');
shown(16#15, S) -> text(S#stun.'NONCE');
shown(16#16, S) -> address(S#stun.'XOR-RELAYED-ADDRESS');
shown(16#17, S) -> case S#stun.'REQUESTED-ADDRESS-FAMILY' of undefined -> <<"none">>; ipv4 -> <<"IPv4">>; ipv6 -> <<"IPv6">>; _ -> <<"refused">> end;
shown(16#19, S) -> case S#stun.'REQUESTED-TRANSPORT' of undefined -> <<"none">>; udp -> <<"17">>; _ -> <<"lacks">> end;
shown(16#20, S) -> address(S#stun.'XOR-MAPPED-ADDRESS');
shown(16#8022, S) -> text(S#stun.'SOFTWARE');
shown(16#8023, S) -> address(S#stun.'ALTERNATE-SERVER');
shown(_, _) -> <<"lacks">>.
place(W) ->
    [P, H] = [lists:reverse(X) || X <- re:split(lists:reverse(binary_to_list(W)), ":", [{parts, 2}, {return, list}])],
    {ok, A} = inet:parse_address(string:trim(H, both, "[]")), {A, list_to_integer(P)}.
with(1, V, S) -> S#stun{'MAPPED-ADDRESS' = place(V)};
with(6, V, S) -> S#stun{'USERNAME' = bin(V)};
with(9, V, S) -> [C, R] = binary:split(V, <<":">>), S#stun{'ERROR-CODE' = {int(C), bin(R)}};
with(16#0a, V, S) -> S#stun{'UNKNOWN-ATTRIBUTES' = [int(T) || T <- string:lexemes(V, ","), T =/= <<"-">>]};
with(16#0c, V, S) -> S#stun{'CHANNEL-NUMBER' = int(V)};
with(16#0d, V, S) -> S#stun{'LIFETIME' = int(V)};
with(16#12, V, S) -> S#stun{'XOR-PEER-ADDRESS' = S#stun.'XOR-PEER-ADDRESS' ++ [place(V)]};
with(16#13, V, S) -> S#stun{'DATA' = bin(V)};
with(16#14, V, S) -> S#stun{'REALM' = bin(V)};
with(16#15, V, S) -> S#stun{'NONCE' = bin(V)};
with(16#16, V, S) -> S#stun{'XOR-RELAYED-ADDRESS' = place(V)};
with(16#17, <<"IPv4">>, S) -> S#stun{'REQUESTED-ADDRESS-FAMILY' = ipv4};
with(16#17, <<"IPv6">>, S) -> S#stun{'REQUESTED-ADDRESS-FAMILY' = ipv6};
with(16#19, <<"17">>, S) -> S#stun{'REQUESTED-TRANSPORT' = udp};
with(16#1a, _, S) -> S#stun{'DONT-FRAGMENT' = true};
with(16#20, V, S) -> S#stun{'XOR-MAPPED-ADDRESS' = place(V)};
with(16#8022, V, S) -> S#stun{'SOFTWARE' = bin(V)};
with(16#8023, V, S) -> S#stun{'ALTERNATE-SERVER' = place(V)};
with(_, _, _) -> throw(<<"lacks">>).
