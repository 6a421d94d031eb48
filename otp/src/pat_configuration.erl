%% A configuration of the program, with which an epoch begins, to what its processes are given: where threads run, what mailboxes
%% are called, and weights anew. Threads, mailboxes and messages have the numbers of the history, and a value `{mailbox, Number}`
%% stands for a mailbox. Nothing of this has to be trusted: what comes of it is in the history.
-module(pat_configuration).
-export([start/0, pending/1, placed/3, words/4]).
-export_type([configuration/0, key/0]).
-include("pat_otp.hrl").

%% The number of a mailbox in a process of its own (pat_host).
-define(ALONE, 1).

%% Threads, each with the mailboxes of which it alone will receive; the other mailboxes, each with a thread that has it; messages.
-type configuration() :: {[thread()], [{mailbox(), number() | none}], [message()]}.
-type thread() :: {number(), pat_thread:control(), [pat_thread:frame()], [mailbox()]}.
-type message() :: {number(), mailbox(), Tag :: 0..31, Values :: list()}.
-type mailbox() :: non_neg_integer().
%% What has a process from the beginning.
-type key() :: {thread, number()} | {mailbox, mailbox()}.
-type threads() :: #{number() => pat_entries:thread()}.
%% What is left at home while names get their parts.
-type homes() :: #{mailbox() => pat_weight:weight()}.

-spec start() -> configuration().
start() -> {[{0, {main, []}, [], []}], [], []}.

-spec pending(configuration()) -> [number()].
pending({_, _, Messages}) -> [Number || {Number, _, _, _} <- Messages].

%% The threads' numbers on the nodes, and what is at each place. A thread stays where it was, if that place is left.
-spec placed(configuration(), #{number() => pat_place:place()}, [pat_place:place()]) -> {threads(), [{pat_place:place(), [key()]}]}.
placed({Threads, Mailboxes, _}, Before, [First | _] = Left) ->
    {Placed, _} = lists:mapfoldl(fun({Number, _, _, _}, Turn) -> place(Number, Before, Left, Turn) end, Left, Threads),
    Places = maps:from_list(Placed),
    Keys = [{Place, {thread, Number}} || {Number, Place} <- Placed]
        ++ [{maps:get(Holder, Places, First), {mailbox, Mailbox}} || {Mailbox, Holder} <- Mailboxes],
    {maps:map(fun pat_place:numbered/2, Places),
     maps:to_list(maps:groups_from_list(fun({Place, _}) -> Place end, fun({_, Key}) -> Key end, Keys))}.

place(Number, Before, Left, []) -> place(Number, Before, Left, Left);
place(Number, Before, Left, [Next | Turn]) ->
    case Before of
        #{Number := Place} when is_integer(Place) ->
            case lists:member(Place, Left) of
                true -> {{Number, Place}, [Next | Turn]};
                false -> {{Number, Next}, Turn}
            end;
        _ -> {{Number, Next}, Turn}
    end.

%% What each process becomes.
-spec words(configuration(), threads(), #{key() => pid()}, {pat_cells:epoch(), module(), pat_entries:stamp()}) ->
          #{key() => pat_resume:word()}.
words({Threads, Mailboxes, Messages}, Numbers, Keepers, {Epoch, Module, Cut}) ->
    Names = names(Threads, Mailboxes, Keepers),
    Whole = maps:map(fun(_, _) -> pat_weight:whole() end, Names),
    {Works, Homes} = lists:mapfoldl(fun(Thread, Rest) -> work(Thread, Names, Rest) end, Whole, Threads),
    {Sent, Left} = lists:mapfoldl(fun(Message, Rest) -> sent(Message, Cut, Names, Rest) end, Homes, Messages),
    Queues = maps:groups_from_list(fun({Mailbox, _}) -> Mailbox end, fun({_, Message}) -> Message end, Sent),
    Box = fun(Mailbox) -> pat_mailbox:filled(maps:get(Mailbox, Left), Cut, maps:get(Mailbox, Queues, [])) end,
    maps:from_list(
        [{{mailbox, Mailbox}, {mailbox, Box(Mailbox)}} || {Mailbox, _} <- Mailboxes]
        ++ [{{thread, Number}, {thread, maps:from_list([{Index, Box(Mailbox)} || {Index, Mailbox} <- numbered(Keeps)]),
                                {Epoch, maps:get(Number, Numbers), Weights, Cut}, {Module, Control, Frames}}}
            || {Number, Control, Frames, Keeps, Weights} <- Works]).

names(Threads, Mailboxes, Keepers) ->
    maps:from_list([{Mailbox, {maps:get({mailbox, Mailbox}, Keepers), ?ALONE}} || {Mailbox, _} <- Mailboxes]
        ++ [{Mailbox, {maps:get({thread, Number}, Keepers), Index}}
            || {Number, _, _, Keeps} <- Threads, {Index, Mailbox} <- numbered(Keeps)]).

numbered(Keeps) -> lists:zip(lists:seq(1, length(Keeps)), Keeps).

%% A thread's control and frames, and the weights of all names in them.
work({Number, Control, Frames, Keeps}, Names, Homes) ->
    {NewControl, First} = control(Control, Names, {[], Homes}),
    {NewFrames, {Weights, Rest}} = lists:mapfoldl(fun(Frame, So) -> point(Frame, Names, So) end, First, Frames),
    {{Number, NewControl, NewFrames, Keeps, Weights}, Rest}.

control({value, Value}, Names, So) ->
    {New, Next} = value(Value, Names, So),
    {{value, New}, Next};
control(Point, Names, So) -> point(Point, Names, So).

point({Function, Values}, Names, So) ->
    {New, Next} = values(Values, Names, So),
    {{Function, New}, Next}.

sent({Number, Mailbox, Tag, Values}, Cut, Names, Homes) ->
    {New, {Weights, Rest}} = values(Values, Names, {[], Homes}),
    {{Mailbox, {Tag, New, Weights, ?SENT_BEFORE, Number, Cut}}, Rest}.

values(Values, Names, So) -> lists:mapfoldl(fun(Value, Next) -> value(Value, Names, Next) end, So, Values).

-spec value(term(), #{mailbox() => pat_names:name()}, {[pat_names:weighted()], homes()}) ->
          {term(), {[pat_names:weighted()], homes()}}.
value({mailbox, Mailbox}, Names, {Weights, Homes}) ->
    #{Mailbox := Name} = Names,
    {Part, Rest} = pat_weight:share(maps:get(Mailbox, Homes)),
    {Name, {[{Name, Part} | Weights], Homes#{Mailbox := Rest}}};
value(Value, _, So) -> {Value, So}.
