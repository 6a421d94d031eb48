%% The merger: takes the entries of all nodes, and says up to which stamp they are final. An entry is final when each node has
%% promised that it will never report one with a stamp as low (pat_log). A cause's stamp is lower than its effect's, so whatever is
%% cut off at a stamp lacks no cause: the final entries are the front of a run at any time, whichever node is lost. It merges one
%% epoch; the next one has a merger of its own, which begins at the cut.
-module(pat_merge).
-behaviour(gen_server).
-export([start_link/2, finish/1, stop/0]).
-export([init/1, handle_call/3, handle_cast/2]).

-record(node, {floor :: pat_entries:stamp(), asked :: pat_entries:stamp(), reports = 0 :: non_neg_integer()}).
-record(state, {epoch :: over | pat_cells:epoch(), nodes :: #{pat_place:place() => #node{}},
                names :: #{pat_place:place() => node()}, runs = [] :: [[pat_entries:run()]],
                cut :: pat_entries:stamp(), newest :: pat_entries:stamp(),
                finish = no :: no | {gen_server:from(), [non_neg_integer()]}}).

%% Of these nodes; what is up to the stamp was written before.
-spec start_link(#{pat_place:place() => node()}, pat_entries:stamp()) -> {ok, pid()} | ignore | {error, term()}.
start_link(Names, Cut) ->
    gen_server:start_link({local, ?MODULE}, ?MODULE, {Names, Cut}, [{spawn_opt, [{message_queue_data, off_heap}]}]).

%% Comes back when each node's reports, so many, are here and all of them are final; exits where that takes long.
-spec finish([non_neg_integer()]) -> ok.
finish(Reports) -> gen_server:call(?MODULE, {finish, Reports}).

%% The epoch is over: what is final by now is written, and nothing else will be. The stamp up to which that is.
-spec stop() -> pat_entries:stamp().
stop() -> gen_server:call(?MODULE, stop, infinity).

-spec init({#{pat_place:place() => node()}, pat_entries:stamp()}) -> {ok, #state{}}.
init({Names, Cut}) ->
    Nodes = maps:map(fun(_, _) -> #node{floor = Cut, asked = Cut} end, Names),
    {ok, #state{epoch = pat_cells:epoch(), nodes = Nodes, names = Names, cut = Cut, newest = Cut}}.

-spec handle_call({finish, [non_neg_integer()]} | stop, gen_server:from(), #state{}) ->
          {reply, pat_entries:stamp(), #state{}} | {noreply, #state{}}.
handle_call(stop, _, #state{cut = Cut} = State) ->
    ok = pat_history:finish(),
    {reply, Cut, State#state{epoch = over}};
handle_call({finish, Reports}, From, State) -> {noreply, finished(State#state{finish = {From, Reports}})}.

-spec handle_cast({report, pat_cells:epoch(), pat_place:place(), pat_entries:stamp(), pat_entries:stamp(), [pat_entries:run()]},
                  #state{}) -> {noreply, #state{}}.
handle_cast({report, Epoch, Place, Floor, Last, Reported},
            #state{epoch = Epoch, nodes = Nodes, runs = Runs, newest = Newest} = State) ->
    #{Place := #node{reports = Reports} = Node} = Nodes,
    {noreply, finished(chase(advance(State#state{nodes = Nodes#{Place := Node#node{floor = Floor, reports = Reports + 1}},
                                                 runs = [Reported | Runs], newest = max(Last, Newest)})))};
handle_cast({report, _, _, _, _, _}, State) -> {noreply, State}.

%% Where more has become final, the history gets all that is there by now.
advance(#state{nodes = Nodes, runs = Runs, cut = Cut} = State) ->
    case lists:min([Floor || #node{floor = Floor} <- maps:values(Nodes)]) of
        Cut -> State;
        Floor ->
            pat_history:write(Floor, lists:append(lists:reverse(Runs))),
            State#state{runs = [], cut = Floor}
    end.

%% Nodes with little to do are asked for floors that let the others' entries become final.
chase(#state{nodes = Nodes, names = Names, newest = Newest} = State) ->
    State#state{nodes = maps:map(
        fun(Place, #node{floor = Floor, asked = Asked} = Node) when Floor < Newest, Asked < Newest ->
                gen_server:cast({pat_log, maps:get(Place, Names)}, {reach, Newest}),
                Node#node{asked = Newest};
           (_, Node) -> Node
        end, Nodes)}.

finished(#state{finish = {From, Expected}, nodes = Nodes, cut = Cut, newest = Newest} = State) when Cut >= Newest ->
    Reports = [Count || {_, #node{reports = Count}} <- lists:sort(maps:to_list(Nodes))],
    case lists:all(fun({Count, Most}) -> Count >= Most end, lists:zip(Reports, Expected)) of
        true -> gen_server:reply(From, ok), State#state{finish = no};
        false -> State
    end;
finished(State) -> State.
