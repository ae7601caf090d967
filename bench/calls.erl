%% A number at one node, and calls to it from another, one after another.
%% erl -name number@127.0.0.1 -noshell -run calls serve
%% erl -name caller@127.0.0.1 -noshell -run calls main number@127.0.0.1 COUNT
-module(calls).
-behaviour(gen_server).
-export([serve/0, main/1, init/1, handle_call/3, handle_cast/2]).

serve() ->
    {ok, _} = gen_server:start({local, number}, ?MODULE, 0, []),
    receive after infinity -> ok end.

init(N) -> {ok, N}.

handle_call({add, X}, _, N) -> {reply, ok, N + X};
handle_call(query, _, N) -> {reply, N, N}.

handle_cast(_, N) -> {noreply, N}.

%% Prints how many microseconds so many calls take.
main([Node, Count]) ->
    Number = {number, list_to_atom(Node)},
    N = list_to_integer(Count),
    ok = meet(Number, 100),
    Start = erlang:monotonic_time(microsecond),
    ok = add(Number, N),
    Took = erlang:monotonic_time(microsecond) - Start,
    N = gen_server:call(Number, query),
    io:format("~p~n", [Took]),
    halt(0).

add(_, 0) -> ok;
add(Number, N) -> ok = gen_server:call(Number, {add, 1}), add(Number, N - 1).

%% Waits until the number is there.
meet(_, 0) -> gone;
meet(Number, Tries) ->
    try gen_server:call(Number, query) of 0 -> ok
    catch exit:_ -> timer:sleep(50), meet(Number, Tries - 1)
    end.
