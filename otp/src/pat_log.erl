%% A node's log: takes the entries of its threads and reports them to the merger, with a promise: all entries of this node with
%% stamps up to the floor are among those reported by now.
%%
%% It is kept by turns. A turn begins with a floor that all of its entries are above (pat_entries). When the turns before have no
%% thread left that has entries at hand, all of theirs have come, and so all up to that floor.
-module(pat_log).
-behaviour(gen_server).
-export([start_link/1, sync/1]).
-export([init/1, handle_call/3, handle_cast/2, handle_info/2]).
-include("pat_otp.hrl").

%% Milliseconds from a turn's end to the next one's beginning, longer where the last one had so many bytes of entries (an entry has
%% five to twenty, but for a line's text), and from a look at those that have entries at hand to the next.
-define(PAUSE, 2).
-define(LONG_PAUSE, 8).
-define(MANY, 10000).
-define(LOOK, 1).
%% So many bytes may be reported and not yet be written; then the threads are held back.
-define(AHEAD, 5000000).

-record(state, {epoch :: pat_cells:epoch(), turn = 0 :: non_neg_integer(), floor :: pat_entries:stamp(),
                closing = no :: no | {Turn :: non_neg_integer(), pat_entries:stamp()}, waits = false :: boolean(),
                runs = [] :: [pat_entries:run()], size = 0 :: non_neg_integer(), pause = ?PAUSE :: pos_integer(),
                newest :: pat_entries:stamp(), wanted = 0 :: pat_entries:stamp(), reports = 0 :: non_neg_integer(),
                unwritten = queue:new() :: queue:queue({pat_entries:stamp(), non_neg_integer()}),
                ahead = 0 :: non_neg_integer()}).

%% For an epoch: what is up to the stamp was there before.
-spec start_link(pat_entries:stamp()) -> {ok, pid()} | ignore | {error, term()}.
start_link(Cut) ->
    gen_server:start_link({local, ?MODULE}, ?MODULE, Cut, [{spawn_opt, [{message_queue_data, off_heap}, {priority, high}]}]).

%% Reports what is there; how many reports that makes.
-spec sync(node()) -> non_neg_integer().
sync(Node) -> gen_server:call({?MODULE, Node}, sync).

-spec init(pat_entries:stamp()) -> {ok, #state{}}.
init(Cut) ->
    atomics:put(pat_cells:all(), ?FLOOR, Cut),
    {ok, #state{epoch = pat_cells:epoch(), floor = Cut, newest = Cut}}.

-spec handle_call(sync, gen_server:from(), #state{}) -> {reply, term(), #state{}}.
handle_call(sync, _, #state{floor = Floor} = State) ->
    #state{reports = Reports} = Reported = report(Floor, State),
    {reply, Reports, Reported}.

-spec handle_cast({reach, pat_entries:stamp()} | {written, pat_entries:stamp()}, #state{}) -> {noreply, #state{}}.
handle_cast({reach, Stamp}, #state{wanted = Wanted} = State) -> {noreply, rouse(State#state{wanted = max(Stamp, Wanted)})};
handle_cast({written, Stamp}, State) -> {noreply, hold(written(Stamp, State))}.

-spec handle_info({entries, pat_entries:run(), pat_entries:stamp()} | turn | look | {closed, pat_entries:stamp()}, #state{}) -> {noreply, #state{}}.
handle_info({entries, {_, Entries} = Run, Last}, #state{runs = Runs, size = Size, newest = Newest} = State) ->
    {noreply, rouse(State#state{runs = [Run | Runs], size = Size + byte_size(Entries), newest = max(Last, Newest)})};
handle_info(turn, State) -> {noreply, look(begin_turn(State#state{waits = false}))};
handle_info(look, State) -> {noreply, look(State)};
handle_info({closed, Floor}, State) -> {noreply, rouse(report(Floor, State#state{closing = no}))}.

%% ---- turns

%% A turn is to begin where there is something beyond the floor, or somebody wants it higher.
rouse(#state{closing = no, waits = false, newest = Newest, wanted = Wanted, floor = Floor, pause = Pause} = State)
  when Newest > Floor; Wanted > Floor ->
    erlang:send_after(Pause, self(), turn),
    State#state{waits = true};
rouse(State) -> State.

begin_turn(#state{turn = Turn, newest = Newest, wanted = Wanted, floor = Old} = State) ->
    Floor = lists:max([Newest, Wanted, Old]),
    Cells = pat_cells:all(),
    atomics:put(Cells, ?FLOOR, Floor),
    atomics:put(Cells, ?TURN, Turn + 2),
    State#state{turn = Turn + 2, closing = {Turn, Floor}}.

%% What was handed over before a thread closed its part is in the queue already; so the word of the end goes behind it.
look(#state{closing = {Turn, Floor}} = State) ->
    _ = case atomics:get(pat_cells:all(), ?OPEN(Turn)) of
        0 -> self() ! {closed, Floor};
        _ -> erlang:send_after(?LOOK, self(), look)
    end,
    State.

report(Floor, #state{epoch = Epoch, runs = Runs, size = Size, newest = Newest, reports = Reports, unwritten = Unwritten,
                     ahead = Ahead} = State) ->
    #{head := Head, place := Place} = pat_cells:run(),
    gen_server:cast({pat_merge, Head}, {report, Epoch, Place, Floor, Newest, lists:reverse(Runs)}),
    Pause = if Size > ?MANY -> ?LONG_PAUSE; true -> ?PAUSE end,
    hold(State#state{floor = Floor, runs = [], size = 0, pause = Pause, reports = Reports + 1,
                     unwritten = queue:in({Floor, Size}, Unwritten), ahead = Ahead + Size}).

%% ---- the writer that can't keep up

written(Stamp, #state{unwritten = Unwritten, ahead = Ahead} = State) ->
    case queue:peek(Unwritten) of
        {value, {Floor, Size}} when Floor =< Stamp ->
            written(Stamp, State#state{unwritten = queue:drop(Unwritten), ahead = Ahead - Size});
        _ -> State
    end.

hold(#state{turn = Turn, ahead = Ahead} = State) when Ahead > ?AHEAD, Turn band 1 =:= 0 -> set_held(Turn + 1, State);
hold(#state{turn = Turn, ahead = Ahead} = State) when Ahead < ?AHEAD div 2, Turn band 1 =:= 1 -> set_held(Turn - 1, State);
hold(State) -> State.

set_held(Turn, State) ->
    atomics:put(pat_cells:all(), ?TURN, Turn),
    State#state{turn = Turn}.
