%% Whoever started the head: it judges the history piece by piece, is told which node was lost and asked where the history leads, and
%% the head ends when it is gone. Both hold an end of a connection, over which lines go.
-module(pat_starter).
-export([open/0, piece/1, judged/1, where/3]).
-export_type([starter/0, said/0]).

%% Its descriptor.
-define(STARTER, 3).
%% No line is longer.
-define(LONGEST, 64).

-type starter() :: port().
-type said() :: {starter(), {data, {eol, string()}} | eof}.

%% The port tells its owner `eof`.
-spec open() -> starter().
open() -> open_port({fd, ?STARTER, ?STARTER}, [eof, {line, ?LONGEST}]).

%% One more piece of the history is whole.
-spec piece(starter()) -> ok.
piece(Starter) ->
    true = port_command(Starter, "piece\n"),
    ok.

%% How many pieces were judged, by what it says.
-spec judged({data, {eol, string()}} | eof) -> non_neg_integer().
judged({data, {eol, "judged " ++ Count}}) -> list_to_integer(Count);
judged(eof) -> halt(1).

%% Where the history leads that is in the folder by now, and the program with functions that go on from there; `unknown` where
%% nobody can tell.
-spec where(starter(), iodata(), file:filename()) -> {ok, pat_configuration:configuration()} | unknown.
where(Starter, Loss, Folder) ->
    true = port_command(Starter, [Loss, $\n]),
    receive
        {Starter, {data, {eol, "known"}}} ->
            {ok, Bytes} = file:read_file(filename:join(Folder, "configuration")),
            {ok, binary_to_term(Bytes)};
        {Starter, {data, {eol, "unknown"}}} -> unknown;
        {Starter, eof} -> halt(1)
    end.
