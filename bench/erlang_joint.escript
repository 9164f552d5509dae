#!/usr/bin/env escript
%%! -sname joint -setcookie joint
%% Joint blocks in Erlang, beside those of `bench/joint.py`: two nodes on this machine with a cell each, and clients on a
%% third, which set both cells under global:trans over both nodes, so that nobody else comes between.
%% usage: erlang_joint.escript CLIENTS BLOCKS
%% Prints how many blocks a second all clients did together. Needs Debian's erlang-base.

main([Clients, Blocks]) ->
    {ok, P1, N1} = begin_node(one),
    {ok, P2, N2} = begin_node(two),
    Nodes = [N1, N2],
    [spawn_cell(N) || N <- Nodes],
    Self = self(),
    C = list_to_integer(Clients),
    B = list_to_integer(Blocks),
    Start = erlang:monotonic_time(microsecond),
    [spawn_link(fun() -> blocks(B, I, Nodes), Self ! {done, I} end) || I <- lists:seq(1, C)],
    [receive {done, I} -> ok end || I <- lists:seq(1, C)],
    Micros = erlang:monotonic_time(microsecond) - Start,
    io:format("erlang, ~p clients: ~p joint blocks a second~n", [C, C * B * 1000000 div Micros]),
    [First, Second] = [ask({cell, N}, get) || N <- Nodes],
    io:format("cells ~s~n", [case First =:= Second of true -> "same"; false -> "different" end]),
    peer:stop(P1),
    peer:stop(P2);
main(_) ->
    io:format("usage: erlang_joint.escript CLIENTS BLOCKS~n"),
    halt(2).

begin_node(Name) ->
    {ok, Peer, Node} = peer:start(#{name => peer:random_name(atom_to_list(Name)), args => ["-setcookie", "joint"]}),
    {ok, Peer, Node}.

%% A process of the node that holds a value. Its code is a term that is sent there, since this file is no module.
spawn_cell(Node) ->
    {ok, Scanned, _} = erl_scan:string(
        "register(cell, spawn(fun() -> Loop = fun(Loop, V) -> receive"
        " {From, Ref, {set, W}} -> From ! {Ref, ok}, Loop(Loop, W);"
        " {From, Ref, get} -> From ! {Ref, V}, Loop(Loop, V) end end, Loop(Loop, 0) end))."),
    {ok, Parsed} = erl_parse:parse_exprs(Scanned),
    {value, true, _} = rpc:call(Node, erl_eval, exprs, [Parsed, []]).

ask(Cell, Request) ->
    Ref = make_ref(),
    Cell ! {self(), Ref, Request},
    receive {Ref, Answer} -> Answer end.

%% Sets both cells, without waiting between, and waits for both.
set_both(Value, Nodes) ->
    Refs = [begin Ref = make_ref(), {cell, N} ! {self(), Ref, {set, Value}}, Ref end || N <- Nodes],
    [receive {Ref, ok} -> ok end || Ref <- Refs].

blocks(0, _, _) -> ok;
blocks(Left, Value, Nodes) ->
    global:trans({cells, self()}, fun() -> set_both(Value, Nodes) end, Nodes),
    blocks(Left - 1, Value, Nodes).
