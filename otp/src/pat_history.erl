%% The history: what is final is put in order and written (pat_order), and then the lines are shown that these entries print. So
%% nothing is shown that the history doesn't have, whatever is lost afterwards: it stays where an epoch ends, and the next one goes on
%% behind it. It ends where the budget of steps or the numbers are spent.
%%
%% Where judging is behind by some pieces (pat_pieces), nodes aren't told any more what is written, and soon hold their threads back
%% (pat_log).
-module(pat_history).
-behaviour(gen_server).
-export([start_link/0, begin_run/1, begin_epoch/3, write/2, judged/1, finish/0, has_ended/0, places/0]).
-export([init/1, handle_call/3, handle_cast/2]).
-export_type([limits/0]).

%% So many pieces may be there and not be judged.
-define(UNJUDGED, 4).

%% The file of the piece that is being written, and how many entries a piece has.
-type limits() :: #{file := file:filename(), steps := non_neg_integer(), piece := pos_integer()}.

-record(state, {nodes = [] :: [node()], order :: pat_order:order(), judged = 0 :: non_neg_integer(),
                ended = false :: boolean(), written = 0 :: pat_entries:stamp()}).

-spec start_link() -> {ok, pid()} | ignore | {error, term()}.
start_link() -> gen_server:start_link({local, ?MODULE}, ?MODULE, [], [{spawn_opt, [{message_queue_data, off_heap}]}]).

-spec begin_run(limits()) -> ok.
begin_run(Limits) -> gen_server:call(?MODULE, {begin_run, Limits}).

%% Of the history's threads these are left, with the numbers that they have on the nodes; and these of its messages are pending.
-spec begin_epoch([node()], [{pat_entries:thread(), non_neg_integer()}], [non_neg_integer()]) -> ok.
begin_epoch(Nodes, Threads, Messages) -> gen_server:call(?MODULE, {begin_epoch, Nodes, Threads, Messages}, infinity).

%% All entries up to the stamp are there, with these and those that came before.
-spec write(pat_entries:stamp(), [pat_entries:run()]) -> ok.
write(Stamp, Runs) -> gen_server:cast(?MODULE, {write, Stamp, Runs}).

%% So many pieces of it were judged by now.
-spec judged(non_neg_integer()) -> ok.
judged(Count) -> gen_server:cast(?MODULE, {judged, Count}).

%% All that came before is written and shown.
-spec finish() -> ok.
finish() -> gen_server:call(?MODULE, finish, infinity).

-spec has_ended() -> boolean().
has_ended() -> gen_server:call(?MODULE, has_ended, infinity).

%% Where the threads that are left run.
-spec places() -> #{non_neg_integer() => pat_place:place()}.
places() -> gen_server:call(?MODULE, places, infinity).

-spec init([]) -> {ok, none}.
init([]) -> {ok, none}.

-spec handle_call({begin_run, limits()} | {begin_epoch, [node()], list(), list()} | finish | has_ended | places,
                  gen_server:from(), none | #state{}) -> {reply, term(), none | #state{}}.
handle_call({begin_run, #{file := Name, steps := Steps, piece := Size}}, _, none) ->
    % Lines are bytes, and go out as they are.
    ok = io:setopts(user, [{encoding, latin1}]),
    {reply, ok, #state{order = pat_order:new(Steps, pat_pieces:first(Name, Size))}};
handle_call(finish, _, State) -> {reply, ok, State};
handle_call({begin_epoch, Nodes, Threads, Messages}, _, #state{order = Order} = State) ->
    {reply, ok, State#state{nodes = Nodes, order = pat_order:begin_epoch(Threads, Messages, Order)}};
handle_call(has_ended, _, #state{ended = Ended} = State) -> {reply, Ended, State};
handle_call(places, _, #state{order = Order} = State) ->
    Alive = maps:to_list(pat_order:alive(Order)),
    {reply, maps:from_list([{Number, pat_place:of_thread(Thread)} || {Thread, Number} <- Alive]), State}.

-spec handle_cast({write, pat_entries:stamp(), [pat_entries:run()]} | {judged, non_neg_integer()}, #state{}) -> {noreply, #state{}}.
handle_cast(_, #state{ended = true} = State) -> {noreply, State};
handle_cast({judged, Count}, State) -> {noreply, tell(State#state{judged = Count})};
handle_cast({write, Stamp, Runs}, #state{order = Order} = State) ->
    {How, {Received, Shown}, Written} = pat_order:take(Stamp, Runs, Order),
    ok = file:write(user, Shown),
    pat_limit:received(Received),
    {noreply, settle(How, tell(State#state{order = Written, written = Stamp}))}.

%% The nodes get to know what is written, unless judging is behind.
tell(#state{order = Order, judged = Judged, nodes = Nodes, written = Stamp} = State) ->
    case pat_order:whole(Order) - Judged of
        Behind when Behind =< ?UNJUDGED ->
            lists:foreach(fun(Node) -> gen_server:cast({pat_log, Node}, {written, Stamp}) end, Nodes);
        _ -> ok
    end,
    State.

settle(goes_on, #state{order = Order} = State) ->
    case map_size(pat_order:alive(Order)) of
        0 -> ended(done, State);
        _ -> State
    end;
settle(How, State) -> ended(How, State).

ended(How, State) ->
    pat_run:ended(How),
    State#state{ended = true}.
