%% A node of the run: takes each epoch's program and list of nodes from the head, and ends when the head is lost or none comes. A
%% node that loses another one tells the head: a message may be lost then, and the epoch can't go on.
-module(pat_node).
-behaviour(gen_server).
-export([start_link/0, prepare/3, failed/1]).
-export([init/1, handle_call/3, handle_cast/2, handle_info/2]).
-export_type([program/0]).
-include("pat_otp.hrl").

%% Milliseconds that a node waits for the head, which waits for the last of the nodes before it calls the first one (pat_run).
-define(PATIENCE, 180000).

-type program() :: {module(), Beam :: binary()}.
-record(state, {head :: undefined | node(), timer :: undefined | reference()}).

-spec start_link() -> {ok, pid()} | ignore | {error, term()}.
start_link() -> gen_server:start_link({local, ?MODULE}, ?MODULE, [], []).

%% On each node, before an epoch begins: nothing is left of the one before. The nodes left that can't be reached from here.
-spec prepare(pat_cells:run(), program(), pat_entries:stamp()) -> [node()].
prepare(#{head := Head, nodes := Nodes, left := Left, place := Place} = Run, {Module, Beam}, Cut) ->
    pat_cells:set_run(Run),
    ok = gen_server:call(?MODULE, {head, Head}),
    pat_resume:end_all(),
    pat_cells:make(),
    pat_otp_sup:begin_epoch([{pat_log, [Cut]}, {pat_credit, []}]),
    _ = code:purge(Module),
    {module, Module} = code:load_binary(Module, "program", Beam),
    Others = [element(Other, Nodes) || Other <- tuple_to_list(Left), Other < Place],
    [Other || Other <- Others, net_kernel:connect_node(Other) =/= true].

%% The runtime is at fault in a thread.
-spec failed(term()) -> ok.
failed(Fault) ->
    #{head := Head} = pat_cells:run(),
    pat_run:failed(Head, Fault).

-spec init([]) -> {ok, #state{}}.
init([]) ->
    ok = net_kernel:monitor_nodes(true),
    {ok, #state{timer = erlang:send_after(?PATIENCE, self(), no_head)}}.

-spec handle_call({head, node()}, gen_server:from(), #state{}) -> {reply, ok, #state{}}.
handle_call({head, Head}, _, #state{timer = Timer}) ->
    _ = is_reference(Timer) andalso erlang:cancel_timer(Timer),
    {reply, ok, #state{head = Head}}.

-spec handle_cast(term(), #state{}) -> {noreply, #state{}}.
handle_cast(_, State) -> {noreply, State}.

-spec handle_info({nodeup | nodedown, node()} | no_head, #state{}) -> {noreply, #state{}}.
handle_info({nodedown, Head}, #state{head = Head}) -> halt(1);
handle_info(no_head, _) -> halt(1);
handle_info({nodedown, Node}, #state{head = Head} = State) when Head =/= undefined ->
    pat_run:lost(Head, pat_cells:epoch(), node(), Node),
    {noreply, State};
handle_info(_, State) -> {noreply, State}.
