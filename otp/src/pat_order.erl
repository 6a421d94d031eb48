%% The order of the history: final entries come thread by thread, and each is written as soon as its causes are. So a thread's go on
%% one behind another until one receives a message that isn't sent yet, or frees; the thread whose send it is comes next, or, where
%% no thread can go on but by a free, the free with the least stamp: all entries of lesser stamps are written then. Entries up to a
%% stamp lack no cause, so all of them can be written so; and any order in which causes come first is one of the same run.
%%
%% Threads, messages and lines get their numbers here, and each entry its line. What is known of a thread, as long as it or one of
%% its messages is there, stands in the process dictionary below its number, since it changes with each entry.
-module(pat_order).
-export([new/2, begin_epoch/3, take/3, alive/1, whole/1]).
-export_type([order/0]).
-include("pat_otp.hrl").
-include("pat_entries.hrl").

%% So many threads, mailboxes or messages may be made: a checkpoint has no greater number.
-define(NUMBERS, 4000000000).

-type natural() :: non_neg_integer().
%% What its lines begin with, which it has when its spawn is written and until it ends; its entries that aren't written, the first
%% ones as words; how many messages it has sent, and for those that aren't received their number, or, where one is received before
%% it is sent, who waits for it.
-record(thread, {front = unborn :: unborn | ended | binary(), words = [] :: pat_entries:words(),
                 runs = queue:new() :: queue:queue(binary()), sends = 0 :: natural(),
                 sent = #{} :: #{natural() => natural() | {wanted, pat_entries:thread()}}}).
%% What is under way: entries whose first word is as high aren't final; threads that may go on; threads that are at a free; those
%% with entries beyond; and the lines that were printed, the last one first.
-record(way, {bound :: natural(), ready :: [pat_entries:thread()], ahead = [] :: [pat_entries:thread()], shown = [] :: [iodata()],
              frees = gb_sets:new() :: gb_sets:set({natural(), pat_entries:thread()})}).
%% What each entry changes: how many steps there are and how many receives, the number of the next message, and the entries' lines,
%% the last one first.
-record(text, {steps = 0 :: natural(), received = 0 :: natural(), sent :: natural(), lines = [] :: [line()]}).
%% So many `steps` are left of the budget, and room for so many entries in this piece; `endings` are those of lines, by what a word has
%% below its stamp.
-record(order, {steps :: natural(), pieces :: pat_pieces:pieces(), room :: pos_integer(), endings :: tuple(), sent = 0 :: natural(),
                named = 1 :: natural(), made = 0 :: natural(), alive = #{} :: #{pat_entries:thread() => natural()},
                ahead = [] :: [pat_entries:thread()]}).
-opaque order() :: #order{}.
%% What it begins with, steps and act, and what there may be besides.
-type line() :: [binary() | byte(), ...].
%% How many receives were written, and what was printed.
-type news() :: {natural(), iodata()}.

%% A history that ends with so many steps.
-spec new(natural(), pat_pieces:pieces()) -> order().
new(Steps, Pieces) ->
    Endings = list_to_tuple([<<(integer_to_binary(local(Word)))/binary, (act(Word band ?ACTS))/binary>> || Word <- lists:seq(0, ?LOW)]),
    #order{steps = Steps, pieces = Pieces, room = pat_pieces:size(Pieces), endings = Endings}.

act(?NONE) -> <<" -\n">>;
act(?NEW) -> <<" new\n">>;
act(?SEND) -> <<" send\n">>;
act(?FREE) -> <<" free\n">>;
act(?END) -> <<" end\n">>;
act(?SPAWN) -> <<" spawn\n">>;
act(?PRINT) -> <<" print\n">>;
act(?RECEIVE) -> <<" receive ">>.

%% Of the history's threads these are left, with the numbers that they have on the nodes; and these of its messages are pending.
-spec begin_epoch([{pat_entries:thread(), natural()}], [natural()], order()) -> order().
begin_epoch(Threads, Messages, Order) ->
    lists:foreach(fun({Key, #thread{}}) -> erase(Key); (_) -> ok end, get()),
    put(?SENT_BEFORE, #thread{front = ended, sent = maps:from_list([{Message, Message} || Message <- Messages])}),
    lists:foldl(fun({Thread, Number}, Next) -> introduce(Thread, #thread{}, Number, Next) end,
                Order#order{alive = #{}, ahead = []}, Threads).

-spec alive(order()) -> #{pat_entries:thread() => natural()}.
alive(#order{alive = Alive}) -> Alive.

%% How many pieces are whole.
-spec whole(order()) -> natural().
whole(#order{pieces = Pieces}) -> pat_pieces:whole(Pieces).

%% The entries up to the stamp that weren't taken before: these, and such as came earlier with others. They are in the file then.
-spec take(pat_entries:stamp(), [pat_entries:run()], order()) -> {goes_on | budget | long | broken, news(), order()}.
take(Stamp, Runs, #order{ahead = Ahead, sent = Sent} = Order) ->
    Threads = lists:usort(lists:foldl(fun arrived/2, Ahead, Runs)),
    Way = #way{bound = pat_entries:bound(Stamp), ready = Threads},
    try go_on(Way, #text{sent = Sent}, Order) of
        {#way{ahead = Later} = Last, Text, Next} ->
            How = case lists:any(fun(Thread) -> is_stuck(get(Thread), Way) end, Threads) of
                true -> broken;
                false -> goes_on
            end,
            write(How, Last, Text, Next#order{ahead = Later})
    catch
        throw:{long, Last, Text} -> write(long, Last, Text, Order)
    end.

arrived({Thread, Entries}, Threads) ->
    #thread{runs = Runs} = State = known(Thread),
    put(Thread, State#thread{runs = queue:in(Entries, Runs)}),
    [Thread | Threads].

known(Thread) ->
    case get(Thread) of
        undefined -> #thread{};
        State -> State
    end.

%% Whether it has entries that should be written by now: no run does that.
is_stuck(#thread{words = [Word | _]}, #way{bound = Bound}) -> Word < Bound;
is_stuck(_, _) -> false.

%% ---- which thread comes next

go_on(#way{ready = [Thread | Ready]} = Way, Text, Order) ->
    case get(Thread) of
        #thread{words = Words} = State -> go(Words, Thread, State, Way#way{ready = Ready}, Text, Order);
        % (it was there twice, and has ended meanwhile)
        undefined -> go_on(Way#way{ready = Ready}, Text, Order)
    end;
go_on(#way{frees = Frees} = Way, Text, Order) ->
    case gb_sets:is_empty(Frees) of
        true -> {Way, Text, Order};
        false ->
            {{_, Thread}, Rest} = gb_sets:take_smallest(Frees),
            #thread{front = Front, words = [Word | Words]} = State = get(Thread),
            go(Words, Thread, State, Way#way{frees = Rest}, line(Front, Word, Text, Order), Order)
    end.

%% The thread's entries, as far as it goes.
go([], Thread, #thread{runs = Runs} = State, Way, Text, Order) ->
    case queue:out(Runs) of
        {{value, Run}, Others} -> go(pat_entries:unpacked(Run), Thread, State#thread{runs = Others}, Way, Text, Order);
        {empty, _} -> stop([], Thread, State, Way, Text, Order)
    end;
go([Word | _] = Words, Thread, State, #way{bound = Bound, ahead = Ahead} = Way, Text, Order) when Word >= Bound ->
    stop(Words, Thread, State, Way#way{ahead = [Thread | Ahead]}, Text, Order);
go([Word | Rest] = Words, Thread, #thread{front = Front} = State, Way, Text, Order) when is_binary(Front) ->
    case Word band ?ACTS of
        ?SEND -> send(Word, Rest, Thread, State, Way, Text, Order);
        ?RECEIVE -> receipt(Words, Thread, State, Way, Text, Order);
        ?FREE ->
            #way{frees = Frees} = Way,
            stop(Words, Thread, State, Way#way{frees = gb_sets:add({Word, Thread}, Frees)}, Text, Order);
        ?NONE -> go(Rest, Thread, State, Way, line(Front, Word, Text, Order), Order);
        Act -> act(Act, Words, Thread, State, Way, Text, Order)
    end;
go(Words, Thread, State, Way, Text, Order) -> stop(Words, Thread, State, Way, Text, Order).

stop(Words, Thread, State, Way, Text, Order) ->
    keep(Thread, State#thread{words = Words}),
    go_on(Way, Text, Order).

send(_, _, _, _, Way, #text{sent = ?NUMBERS} = Text, _) -> throw({long, Way, Text});
send(Word, Rest, Thread, #thread{front = Front, sends = Sends, sent = Sent} = State, Way, Text, Order) ->
    #text{sent = Number} = Next = line(Front, Word, Text, Order),
    Now = case Sent of
        #{Sends := {wanted, By}} -> Way#way{ready = [By | Way#way.ready]};
        _ -> Way
    end,
    go(Rest, Thread, State#thread{sends = Sends + 1, sent = Sent#{Sends => Number}}, Now, Next#text{sent = Number + 1}, Order).

receipt([Word, From, Which | Rest] = Words, Thread, State, Way, Text, Order) ->
    case taken(From, Which, Thread, State) of
        {Number, Next} -> go(Rest, Thread, Next, Way, receive_line(Next#thread.front, Word, Number, Text, Order), Order);
        wanted -> stop(Words, Thread, State, Way, Text, Order)
    end.

%% The number of the message that a thread receives, or that it waits for its send.
taken(Thread, Which, Thread, #thread{sent = Sent} = State) ->
    case Sent of
        #{Which := Number} when is_integer(Number) -> {Number, State#thread{sent = maps:remove(Which, Sent)}};
        _ -> wanted
    end;
taken(From, Which, Thread, State) ->
    #thread{sent = Sent} = Sender = known(From),
    case Sent of
        #{Which := Number} when is_integer(Number) ->
            keep(From, Sender#thread{sent = maps:remove(Which, Sent)}),
            {Number, State};
        _ ->
            put(From, Sender#thread{sent = Sent#{Which => {wanted, Thread}}}),
            wanted
    end.

%% What is known of a thread that has ended is needed for its messages alone.
keep(Thread, #thread{front = ended, words = [], sent = Sent}) when map_size(Sent) =:= 0 -> erase(Thread);
keep(Thread, State) -> put(Thread, State).

act(?PRINT, [Word, Print | Rest], Thread, #thread{front = Front} = State, #way{shown = Shown} = Way, Text, Order) ->
    go(Rest, Thread, State, Way#way{shown = [[<<"out ">>, Print, $\n] | Shown]}, line(Front, Word, Text, Order), Order);
act(?END, [Word | Rest], Thread, #thread{front = Front} = State, Way, Text, #order{alive = Alive} = Order) ->
    go(Rest, Thread, State#thread{front = ended}, Way, line(Front, Word, Text, Order), Order#order{alive = maps:remove(Thread, Alive)});
act(_, _, _, _, Way, Text, #order{named = Named, made = Made}) when Named =:= ?NUMBERS; Made =:= ?NUMBERS -> throw({long, Way, Text});
act(?SPAWN, [Word, New | Rest], Thread, #thread{front = Front} = State, #way{ready = Ready} = Way, Text, Order) ->
    #order{named = Number} = Order,
    Born = introduce(New, known(New), Number, Order#order{named = Number + 1}),
    go(Rest, Thread, State, Way#way{ready = [New | Ready]}, line(Front, Word, Text, Order), Born);
act(?NEW, [Word | Rest], Thread, #thread{front = Front} = State, Way, Text, #order{made = Made} = Order) ->
    go(Rest, Thread, State, Way, line(Front, Word, Text, Order), Order#order{made = Made + 1}).

%% A thread gets its number in the history, and what its lines begin with.
introduce(Thread, State, Number, #order{alive = Alive} = Order) ->
    Worker = pat_place:of_thread(Thread) - 1,
    put(Thread, State#thread{front = iolist_to_binary([integer_to_binary(Worker), $\s, integer_to_binary(Number), $\s])}),
    Order#order{alive = Alive#{Thread => Number}}.

%% ---- lines

line(Front, Word, #text{steps = Steps, received = Received, sent = Sent, lines = Lines}, Order) ->
    #text{steps = Steps + steps(Word), received = Received, sent = Sent, lines = [[Front, ending(Word, Order)] | Lines]}.

receive_line(Front, Word, Number, #text{steps = Steps, received = Received, sent = Sent, lines = Lines}, Order) ->
    Line = [Front, ending(Word, Order), integer_to_binary(Number), $\n],
    #text{steps = Steps + steps(Word), received = Received + 1, sent = Sent, lines = [Line | Lines]}.

ending(Word, #order{endings = Endings}) -> element(Word band ?LOW + 1, Endings).

steps(Word) when Word band ?ACTS =:= ?NONE -> local(Word);
steps(Word) -> local(Word) + 1.

local(Word) -> (Word bsr ?STEPS) band ?MOST_STEPS.

%% What was taken goes to the file, and its steps off the budget.
write(_, #way{shown = Shown}, #text{steps = Steps, received = Received, lines = Lines}, #order{steps = Left} = Order)
  when Steps > Left ->
    {Front, Prints} = front(lists:reverse(Lines), Left, [], 0),
    {budget, {Received, lists:sublist(lists:reverse(Shown), Prints)}, pieces(Front, Order#order{steps = 0})};
write(How, #way{shown = Shown}, #text{steps = Steps, received = Received, sent = Sent, lines = Lines}, #order{steps = Left} = Order) ->
    {How, {Received, lists:reverse(Shown)}, pieces(lists:reverse(Lines), Order#order{steps = Left - Steps, sent = Sent})}.

%% The lines of so many steps, of the last one as many local steps as are left; and how many of them are prints.
front([Line | Lines], Left, Front, Prints) ->
    [Begin, Ending | _] = Line,
    case string:to_integer(Ending) of
        {Local, <<" -\n">>} when Local =< Left -> front(Lines, Left - Local, [Line | Front], Prints);
        {Local, Act} when Local < Left -> front(Lines, Left - Local - 1, [Line | Front], Prints + is_print(Act));
        {Local, _} when Left > 0 -> {lists:reverse(Front, [[Begin, integer_to_binary(min(Left, Local)), <<" -\n">>]]), Prints};
        _ -> {lists:reverse(Front), Prints}
    end.

is_print(<<" print\n">>) -> 1;
is_print(_) -> 0.

pieces(Lines, Order) -> pieces(Lines, length(Lines), Order).

pieces(Lines, Count, #order{pieces = Pieces, room = Room} = Order) when Count < Room ->
    ok = pat_pieces:write(Lines, Pieces),
    Order#order{room = Room - Count};
pieces(Lines, Count, #order{pieces = Pieces, room = Room} = Order) ->
    {Piece, Rest} = lists:split(Room, Lines),
    Next = pat_pieces:next(Piece, Pieces),
    pieces(Rest, Count - Room, Order#order{pieces = Next, room = pat_pieces:size(Next)}).
