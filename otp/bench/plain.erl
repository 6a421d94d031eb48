%% The pairs of pairs.pat as one writes them by hand, for comparison: no mailboxes that are freed, no log, no history.
%% erlc plain.erl && erl -noinput +S 1:1 -s plain run
-module(plain).
-export([run/0]).

-define(PAIRS, 32).
-define(ROUNDS, 2000).

run() ->
    _ = erlang:statistics(runtime),
    Begun = erlang:monotonic_time(microsecond),
    Me = self(),
    [spawn(fun() -> pinger(spawn(fun ponger/0), ?ROUNDS), Me ! done end) || _ <- lists:seq(1, ?PAIRS)],
    [receive done -> ok end || _ <- lists:seq(1, ?PAIRS)],
    {_, Used} = erlang:statistics(runtime),
    io:format("~p microseconds; ~p milliseconds of a processor~n", [erlang:monotonic_time(microsecond) - Begun, Used]),
    halt(0).

pinger(Ponger, 0) -> Ponger ! stop;
pinger(Ponger, Left) -> Ponger ! {ping, self()}, receive pong -> pinger(Ponger, Left - 1) end.

ponger() -> receive {ping, Pinger} -> Pinger ! pong, ponger(); stop -> ok end.
