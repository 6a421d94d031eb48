%% The head begins an epoch, on the nodes that are left: a configuration of the program, which is the start or where the history
%% leads, gets places, names and weights, and then all its threads begin at once.
-module(pat_epoch).
-export([prepare/3, begin_epoch/5, end_epoch/0]).

%% Milliseconds that a node has for each of the steps.
-define(PATIENCE, 60000).

%% The nodes have the program and one another, and nothing is left of another epoch. Throws `{lost, Nodes}`, as the next one does,
%% where some don't answer as they should, or another one can't reach one.
-spec prepare(pat_cells:run(), pat_node:program(), pat_entries:stamp()) -> ok.
prepare(#{left := Left} = Run, Program, Cut) ->
    case lists:append(on_each(Run, [{Place, pat_node, prepare, [Run#{place := Place}, Program, Cut]}
                                    || Place <- tuple_to_list(Left)])) of
        [] -> ok;
        [Node | _] -> throw({lost, [Node]})
    end.

%% So many messages may be pending at most; and what is up to the stamp is in the history.
-spec begin_epoch(pat_cells:run(), module(), pat_entries:stamp(), pat_configuration:configuration(), pos_integer()) -> ok.
begin_epoch(#{epoch := Epoch, left := Left, nodes := All} = Run, Module, Cut, Configuration, Messages) ->
    Nodes = maps:from_list([{Place, element(Place, All)} || Place <- tuple_to_list(Left)]),
    {Threads, Keys} = pat_configuration:placed(Configuration, pat_history:places(), tuple_to_list(Left)),
    Pids = on_each(Run, [{Place, pat_resume, keepers, [length(Here)]} || {Place, Here} <- Keys]),
    Keepers = maps:from_list(lists:append([lists:zip(Here, Those) || {{_, Here}, Those} <- lists:zip(Keys, Pids)])),
    Words = pat_configuration:words(Configuration, Threads, Keepers, {Epoch, Module, Cut}),
    begin_head(Run, Nodes, Cut, {Threads, pat_configuration:pending(Configuration), Messages}),
    begin_nodes(Run, [{Place, pat_resume, begin_all, [[{maps:get(Key, Keepers), maps:get(Key, Words)} || Key <- Here]]}
                      || {Place, Here} <- Keys]),
    pat_otp_sup:begin_epoch([{pat_rest, [[node() | maps:values(Nodes)]]}]).

%% From here on the history grows: a node that doesn't answer is lost in this epoch, as it is at any later moment.
begin_nodes(Run, Calls) ->
    try _ = on_each(Run, Calls), ok
    catch
        {lost, Lost} -> lists:foreach(fun erlang:disconnect_node/1, Lost)
    end.

begin_head(Run, Nodes, Cut, {Threads, Pending, Messages}) ->
    pat_cells:set_run(Run),
    pat_cells:make(),
    ok = pat_history:begin_epoch(maps:values(Nodes), [{Thread, Number} || {Number, Thread} <- maps:to_list(Threads)], Pending),
    pat_otp_sup:begin_epoch([{pat_limit, [maps:values(Nodes), Messages - length(Pending)]}, {pat_merge, [Nodes, Cut]}]).

%% The head takes nothing more of the epoch.
-spec end_epoch() -> ok.
end_epoch() -> pat_otp_sup:end_epoch([pat_rest, pat_limit, pat_merge]).

%% What these calls at places come back with, all being made at once.
on_each(#{nodes := Nodes}, Calls) ->
    Requests = [{element(Place, Nodes), erpc:send_request(element(Place, Nodes), Module, Function, Words)}
                || {Place, Module, Function, Words} <- Calls],
    Answers = [{Node, answer(Node, Request)} || {Node, Request} <- Requests],
    case [Node || {Node, lost} <- Answers] of
        [] -> [Answer || {_, {ok, Answer}} <- Answers];
        Lost -> throw({lost, Lost})
    end.

answer(Node, Request) ->
    try {ok, erpc:receive_response(Request, ?PATIENCE)}
    catch
        error:{erpc, _} -> lost;
        Class:Reason -> logger:error("~w: ~w ~0p", [Node, Class, Reason]), lost
    end.
