%% The limit on pending messages, kept at the head. A send takes a credit. There are as many as messages may be pending, and one
%% more for each receive that is written: a send that such a credit allows has a stamp beyond what was final then, so it is written
%% later, and at each entry of the history no more messages are pending than may be. Nodes ask for credits when they have none left
%% (pat_credit).
-module(pat_limit).
-behaviour(gen_server).
-export([start_link/2, received/1, is_short/0]).
-export([init/1, handle_call/3, handle_cast/2, handle_info/2]).
-include("pat_otp.hrl").

-record(state, {epoch :: pat_cells:epoch(), nodes :: [node()], pool :: integer(),
                asks = queue:new() :: queue:queue({node(), pos_integer()}), lent = false :: boolean(), claimed = 0 :: non_neg_integer()}).

%% For an epoch of these nodes, in which so many messages more may be pending than are at its beginning.
-spec start_link([node()], integer()) -> {ok, pid()} | ignore | {error, term()}.
start_link(Nodes, Messages) -> gen_server:start_link({local, ?MODULE}, ?MODULE, {Nodes, Messages}, []).

%% So many receives were written.
-spec received(non_neg_integer()) -> ok.
received(0) -> ok;
received(Count) -> gen_server:cast(?MODULE, {received, Count}).

%% Whether some thread waits for a credit.
-spec is_short() -> boolean().
is_short() -> gen_server:call(?MODULE, is_short).

-spec init({[node()], integer()}) -> {ok, #state{}}.
init({Nodes, Messages}) -> {ok, #state{epoch = pat_cells:epoch(), nodes = Nodes, pool = Messages}}.

-spec handle_call(is_short, gen_server:from(), #state{}) -> {reply, term(), #state{}}.
handle_call(is_short, _, #state{asks = Asks} = State) -> {reply, not queue:is_empty(Asks), State}.

-spec handle_cast({received, pos_integer()}, #state{}) -> {noreply, #state{}}.
handle_cast({received, Count}, #state{pool = Pool} = State) -> {noreply, serve(State#state{pool = Pool + Count})}.

-spec handle_info({ask | returned, pat_cells:epoch(), node(), integer()}, #state{}) -> {noreply, #state{}}.
handle_info({ask, Epoch, Node, Count}, #state{epoch = Epoch, asks = Asks} = State) ->
    Next = serve(State#state{asks = queue:in({Node, Count}, Asks)}),
    {noreply, taken(Next)};
handle_info({returned, Epoch, _, Count}, #state{epoch = Epoch, pool = Pool, claimed = Claimed} = State) ->
    Next = serve(State#state{pool = Pool + Count, claimed = Claimed - 1}),
    {noreply, taken(Next)};
handle_info(_, State) -> {noreply, State}.

taken(State) ->
    atomics:add(pat_cells:all(), ?TAKEN, 1),
    State.

post(Node, Message) ->
    atomics:add(pat_cells:all(), ?POSTED, 1),
    {pat_credit, Node} ! Message,
    ok.

serve(#state{epoch = Epoch, pool = Pool, asks = Asks, nodes = Nodes} = State) ->
    case queue:peek(Asks) of
        {value, {Node, Count}} when Pool > 0 ->
            Share = min(Count, max(1, Pool div (2 * length(Nodes)))),
            post(Node, {grant, Epoch, Share}),
            serve(State#state{pool = Pool - Share, asks = queue:drop(Asks), lent = true});
        {value, _} -> claim(State);
        empty -> State
    end.

%% What other nodes have left is asked back.
claim(#state{epoch = Epoch, lent = true, claimed = 0, nodes = Nodes} = State) ->
    lists:foreach(fun(Node) -> post(Node, {claim, Epoch}) end, Nodes),
    State#state{lent = false, claimed = length(Nodes)};
claim(State) -> State.
