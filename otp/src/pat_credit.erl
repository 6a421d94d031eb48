%% A node's credits (pat_limit): threads take them from a cell, and come here when none is left.
-module(pat_credit).
-behaviour(gen_server).
-export([start_link/0]).
-export([init/1, handle_call/3, handle_cast/2, handle_info/2]).
-include("pat_otp.hrl").

%% So many are asked for at once.
-define(CHUNK, 8192).

-record(state, {epoch :: pat_cells:epoch(), threads = queue:new() :: queue:queue(pid()), asked = false :: boolean()}).

-spec start_link() -> {ok, pid()} | ignore | {error, term()}.
start_link() -> gen_server:start_link({local, ?MODULE}, ?MODULE, [], []).

-spec init([]) -> {ok, #state{}}.
init([]) -> {ok, #state{epoch = pat_cells:epoch()}}.

-spec handle_call(term(), gen_server:from(), #state{}) -> {reply, ok, #state{}}.
handle_call(_, _, State) -> {reply, ok, State}.

-spec handle_cast(term(), #state{}) -> {noreply, #state{}}.
handle_cast(_, State) -> {noreply, State}.

-spec handle_info({want, pid()} | {grant, pat_cells:epoch(), pos_integer()} | {claim, pat_cells:epoch()}, #state{}) ->
          {noreply, #state{}}.
handle_info(Message, #state{epoch = Epoch} = State) when element(1, Message) =/= want, element(2, Message) =/= Epoch ->
    {noreply, State};
handle_info(Message, State) ->
    Next = take(Message, State),
    atomics:add(pat_cells:all(), ?TAKEN, 1),
    {noreply, Next}.

take({want, Thread}, #state{threads = Threads} = State) -> serve(State#state{threads = queue:in(Thread, Threads)});
take({grant, _, Count}, State) ->
    atomics:add(pat_cells:all(), ?CREDIT, Count),
    serve(State#state{asked = false});
take({claim, Epoch}, State) ->
    post_head({returned, Epoch, node(), atomics:exchange(pat_cells:all(), ?CREDIT, 0)}),
    State.

serve(#state{threads = Threads} = State) ->
    case queue:out(Threads) of
        {empty, _} -> State;
        {{value, Thread}, Rest} ->
            Cells = pat_cells:all(),
            case atomics:sub_get(Cells, ?CREDIT, 1) of
                Left when Left >= 0 -> post(Thread, credit), serve(State#state{threads = Rest});
                _ -> atomics:add(Cells, ?CREDIT, 1), ask(State)
            end
    end.

ask(#state{asked = true} = State) -> State;
ask(#state{epoch = Epoch} = State) ->
    post_head({ask, Epoch, node(), ?CHUNK}),
    State#state{asked = true}.

post_head(Message) ->
    #{head := Head} = pat_cells:run(),
    post({pat_limit, Head}, Message).

post(To, Message) ->
    atomics:add(pat_cells:all(), ?POSTED, 1),
    To ! Message,
    ok.
