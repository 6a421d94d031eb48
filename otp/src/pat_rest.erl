%% Tells when a run has come to rest: no thread goes on and no message is under way. Four counters (Mattern 1987): the nodes are
%% asked twice how many messages were posted and taken and how many threads are active. Where in the second round nobody is
%% active, and all four sums are the same, it was at rest in between. For a thread is seen idle only after it added what it took;
%% so one that was active in between would have taken something since the first round. A thread adds its counts when it has
%% waited for some time: those that answer each other quickly never touch a shared number.
-module(pat_rest).
-behaviour(gen_server).
-export([start_link/1, look_again/0, counts/1]).
-export([init/1, handle_call/3, handle_cast/2, handle_info/2]).

%% Milliseconds between rounds: at first, and at most.
-define(SOON, 2).
-define(LATE, 40).
%% So many a node has to answer.
-define(ANSWER, 5000).

-record(state, {epoch :: pat_cells:epoch(), nodes :: [node()], wait = ?SOON :: pos_integer(), last = none :: none | pat_cells:counts()}).

%% For an epoch: from now on these nodes are asked, until they are at rest; then pat_run is told.
-spec start_link([node()]) -> {ok, pid()} | ignore | {error, term()}.
start_link(Nodes) -> gen_server:start_link({local, ?MODULE}, ?MODULE, Nodes, []).

-spec look_again() -> ok.
look_again() -> gen_server:cast(?MODULE, look_again).

-spec init([node()]) -> {ok, #state{}}.
init(Nodes) -> {ok, later(#state{epoch = pat_cells:epoch(), nodes = Nodes})}.

-spec handle_call(term(), gen_server:from(), #state{}) -> {reply, ok, #state{}}.
handle_call(_, _, State) -> {reply, ok, State}.

-spec handle_cast(look_again, #state{}) -> {noreply, #state{}}.
handle_cast(look_again, State) -> {noreply, later(State#state{last = none})}.

-spec handle_info(round, #state{}) -> {noreply, #state{}}.
handle_info(round, #state{epoch = Epoch, nodes = Nodes, last = Last} = State) ->
    case counts(Nodes) of
        {Same, Same, 0} = Last -> pat_run:at_rest(Epoch, Last), {noreply, State};
        Counts -> {noreply, later(State#state{last = Counts})}
    end.

later(#state{wait = Wait} = State) ->
    erlang:send_after(Wait, self(), round),
    State#state{wait = min(Wait * 2, ?LATE)}.

%% The sums over these nodes; `lost` where one doesn't answer.
-spec counts([node()]) -> pat_cells:counts() | lost.
counts(Nodes) ->
    lists:foldl(fun({ok, {P, T, A}}, {Posted, Taken, Active}) -> {Posted + P, Taken + T, Active + A};
                   (_, _) -> lost
                end, {0, 0, 0}, erpc:multicall(Nodes, pat_cells, counts, [], ?ANSWER)).
