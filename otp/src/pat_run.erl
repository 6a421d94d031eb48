%% A run, from the first node's answer to the last entry. Its words come from the application's environment, and how it ended
%% goes to a file beside the history. Where a node is lost, what isn't final is forgotten on all of them, and those that are left
%% go on from where the history leads, in an epoch of their own. Whether the history is one of the program, and how it stands, is
%% for `pat replay` to say.
-module(pat_run).
-behaviour(gen_server).
-export([start_link/0, ended/1, piece/0, at_rest/2, lost/4, failed/2]).
-export([init/1, handle_continue/2, handle_call/3, handle_cast/2, handle_info/2]).

%% Milliseconds until a node counts as not there, between calls upon it, and for its answer.
-define(PATIENCE, 60000).
-define(BETWEEN, 100).
-define(ANSWER, 5000).
%% The last words are given so many milliseconds.
-define(LAST, 2000).
%% So often two nodes may lose each other and find each other again.
-define(PARTINGS, 10).

-type ending() :: done | budget | long | broken.
-type loss() :: {lost, By :: node(), node()}.
%% Milliseconds of processors that a node has taken.
-type cost() :: non_neg_integer() | lost.
%% Those `left` are in the epoch.
-record(state, {starter :: pat_starter:starter(), nodes :: [node()], left :: [node()], epoch = 1 :: pat_cells:epoch(),
                partings = 0 :: non_neg_integer(), folder :: file:filename(), began = 0 :: integer(), used :: [cost()]}).

-spec start_link() -> {ok, pid()} | ignore | {error, term()}.
start_link() -> gen_server:start_link({local, ?MODULE}, ?MODULE, [], []).

%% The history ends: all threads have ended, the budget of steps or the numbers are spent, or a cause is missing.
-spec ended(ending()) -> ok.
ended(How) -> gen_server:cast(?MODULE, {ended, How}).

%% A piece of the history is whole.
-spec piece() -> ok.
piece() -> gen_server:cast(?MODULE, piece).

-spec at_rest(pat_cells:epoch(), pat_cells:counts()) -> ok.
at_rest(Epoch, Counts) -> gen_server:cast(?MODULE, {at_rest, Epoch, Counts}).

%% One node has lost another.
-spec lost(node(), pat_cells:epoch(), node(), node()) -> ok.
lost(Head, Epoch, By, Node) -> gen_server:cast({?MODULE, Head}, {lost, Epoch, By, Node}).

-spec failed(node(), term()) -> ok.
failed(Head, Fault) -> gen_server:cast({?MODULE, Head}, {failed, Fault}).

-spec init([]) -> {ok, #state{}, {continue, begin_run}}.
init([]) ->
    Nodes = word(nodes),
    {ok, #state{starter = pat_starter:open(), nodes = Nodes, left = Nodes, folder = word(folder),
                used = [lost || _ <- [node() | Nodes]]}, {continue, begin_run}}.

-spec handle_continue(begin_run, #state{}) -> {noreply, #state{}}.
handle_continue(begin_run, #state{nodes = Nodes} = State) ->
    Until = erlang:monotonic_time(millisecond) + ?PATIENCE,
    case [Node || Node <- Nodes, not is_there(Node, Until)] of
        [] -> begin_or_stop(State);
        Absent -> stop({absent, Absent}, State)
    end.

-spec handle_call(term(), gen_server:from(), #state{}) -> {reply, ok, #state{}}.
handle_call(_, _, State) -> {reply, ok, State}.

%% (what was said of another epoch is over)
-spec handle_cast({ended, ending()} | piece | {at_rest, pat_cells:epoch(), pat_cells:counts()}
                  | {lost, pat_cells:epoch(), node(), node()} | {failed, term()}, #state{}) -> {noreply, #state{}}.
handle_cast({ended, How}, State) -> stop(How, State);
handle_cast({failed, Fault}, State) -> stop({failed, Fault}, State);
handle_cast(piece, #state{starter = Starter} = State) ->
    pat_starter:piece(Starter),
    {noreply, State};
handle_cast({at_rest, Epoch, Counts}, #state{epoch = Epoch} = State) -> settle(Counts, State);
handle_cast({lost, Epoch, By, Node}, #state{epoch = Epoch} = State) -> survive({lost, By, Node}, parted(Node, State));
handle_cast(_, State) -> {noreply, State}.

-spec handle_info({nodeup | nodedown, node()} | pat_starter:said(), #state{}) -> {noreply, #state{}}.
handle_info({Port, Said}, State) when is_port(Port) ->
    pat_history:judged(pat_starter:judged(Said)),
    {noreply, State};
handle_info({nodedown, Node}, #state{left = Left} = State) ->
    case lists:member(Node, Left) of
        true -> survive({lost, node(), Node}, State);
        false -> {noreply, State}
    end;
handle_info({nodeup, _}, State) -> {noreply, State}.

%% ---- beginning

%% With its file the history begins: only when all nodes have the program.
begin_or_stop(#state{nodes = Nodes, folder = Folder} = State) ->
    ok = net_kernel:monitor_nodes(true),
    try prepare(0, State) of
        Epoch ->
            ok = pat_history:begin_run(#{file => filename:join(Folder, "history"), steps => word(steps), piece => word(piece)}),
            Begun = State#state{began = erlang:monotonic_time(microsecond), used = used(Nodes)},
            enter(Epoch, 0, pat_configuration:start(), Begun)
    catch
        {lost, Lost} -> stop({absent, Lost}, State)
    end.

is_there(Node, Until) ->
    case net_kernel:connect_node(Node) =:= true andalso is_ready(Node) of
        true -> true;
        false ->
            timer:sleep(?BETWEEN),
            erlang:monotonic_time(millisecond) < Until andalso is_there(Node, Until)
    end.

%% Its application may have to start yet; or the node is gone again, or has too much else to do.
is_ready(Node) ->
    try erpc:call(Node, erlang, whereis, [pat_node], ?ANSWER) =/= undefined
    catch
        error:{erpc, _} -> false
    end.

prepare(Cut, #state{nodes = Nodes, left = Left, epoch = Epoch, folder = Folder}) ->
    {ok, Module, Beam} = compile:file(filename:join(Folder, word(program)), [binary]),
    Places = maps:from_list(lists:zip(Nodes, lists:seq(1, length(Nodes)))),
    Run = #{epoch => Epoch, place => 0, nodes => list_to_tuple(Nodes), places => Places,
            left => list_to_tuple([maps:get(Node, Places) || Node <- Left]), head => node(), spread => word(spread)},
    ok = pat_epoch:prepare(Run, {Module, Beam}, Cut),
    {Run, Module}.

%% The epoch for which the nodes are prepared; or another one, where one of them is lost meanwhile.
enter({Run, Module}, Cut, Configuration, State) ->
    try
        ok = pat_epoch:begin_epoch(Run, Module, Cut, Configuration, word(messages)),
        {noreply, State}
    catch
        {lost, Lost} -> go_on(Lost, Cut, Configuration, State)
    end.

used(Nodes) ->
    [case One of {ok, {Time, _}} -> Time; _ -> lost end
     || One <- erpc:multicall([node() | Nodes], erlang, statistics, [runtime], ?LAST)].

word(Key) -> {ok, Value} = application:get_env(pat_otp, Key), Value.

%% ---- going on where a node is lost

%% A message may be gone where two nodes have lost each other, while both are there.
parted(Node, #state{partings = Partings} = State) ->
    _ = Partings >= ?PARTINGS andalso erlang:disconnect_node(Node),
    State#state{partings = Partings + 1}.

-spec survive(loss(), #state{}) -> {noreply, #state{}}.
survive(Loss, #state{left = Left} = State) ->
    Cut = pat_merge:stop(),
    case pat_history:has_ended() of
        true -> {noreply, State};
        false ->
            pat_epoch:end_epoch(),
            survive(Loss, Cut, State#state{left = [Node || Node <- Left, lists:member(Node, nodes())]})
    end.

survive(Loss, _, #state{left = []} = State) -> stop(Loss, State);
survive(Loss, Cut, #state{starter = Starter, folder = Folder} = State) ->
    case pat_starter:where(Starter, said(Loss), Folder) of
        {ok, Configuration} -> go_on([], Cut, Configuration, State);
        unknown -> stop(Loss, State)
    end.

%% Without these nodes as well.
go_on(Lost, Cut, Configuration, #state{left = Left, epoch = Epoch} = State) ->
    lists:foreach(fun erlang:disconnect_node/1, Lost),
    case State#state{left = Left -- Lost, epoch = Epoch + 1} of
        #state{left = []} = Last -> stop({lost, node(), hd(Lost)}, Last);
        Next ->
            try prepare(Cut, Next) of
                Prepared -> enter(Prepared, Cut, Configuration, Next)
            catch
                {lost, More} -> go_on(More, Cut, Configuration, Next)
            end
    end.

%% ---- the end

%% At rest, but what is final may come after it, and give leave to send: then it wasn't the end.
settle(Counts, #state{left = Nodes} = State) ->
    try finish(Nodes) of
        {How, Counts} -> stop(How, State);
        _ -> pat_rest:look_again(), {noreply, State}
    catch
        % It takes long; or a node is lost, and that will be said.
        exit:_ -> pat_rest:look_again(), {noreply, State}
    end.

%% How it ends if what is counted behind all that was final is what was counted before.
finish(Nodes) ->
    ok = pat_merge:finish([pat_log:sync(Node) || Node <- Nodes]),
    ok = pat_history:finish(),
    How = case pat_limit:is_short() of true -> full; false -> waiting end,
    {How, pat_rest:counts([node() | Nodes])}.

-spec stop(term(), #state{}) -> no_return().
stop(How, #state{nodes = Nodes, folder = Folder, began = Began, used = Used}) ->
    Took = erlang:monotonic_time(microsecond) - Began,
    ok = pat_history:finish(),
    Times = [if is_integer(After), is_integer(Before) -> After - Before; true -> lost end
             || {After, Before} <- lists:zip(used(Nodes), Used)],
    Text = io_lib:format("~s~n~w~n~w~n", [said(How), Took, Times]),
    ok = file:write_file(filename:join(Folder, "ended"), unicode:characters_to_binary(Text)),
    lists:foreach(fun(Node) -> erpc:cast(Node, erlang, halt, [0]) end, Nodes),
    halt(0).

said({lost, By, Node}) when By =:= node() -> io_lib:format("lost ~s", [Node]);
said({lost, By, Node}) -> io_lib:format("lost ~s by ~s", [Node, By]);
said({absent, Nodes}) -> ["absent", [[$\s, atom_to_list(Node)] || Node <- Nodes]];
said({failed, Fault}) -> io_lib:format("failed ~0p", [Fault]);
said(How) -> atom_to_list(How).
