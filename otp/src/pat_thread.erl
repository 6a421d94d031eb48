%% A thread of the program: a process that runs translated code, which calls the acts below. Its control and frames are Erlang's
%% own stack; those frames alone are data with which it began, where it begins in its middle. The number that an act takes first
%% is that of the local steps since the last act.
%%
%% Kept in the process dictionary, besides what pat_entries, pat_names and pat_post keep: `epoch`; `boxes`, the mailboxes that this
%% process keeps, by number; `boxes_made`.
-module(pat_thread).
-export([local/1, dup/1, drop/1, drop_now/1, new/2, send/5, spawn/6, print/2, guard/4]).
-export([start/2, adopt/3]).
-export_type([home/0, life/0, work/0, control/0, frame/0]).
-include("pat_otp.hrl").

%% Where a new mailbox is kept: in this thread, which alone will ever receive from it, or in a process of its own.
-type home() :: here | apart.
%% Who a new thread is: its names with their weights, and the stamp that its first entry is behind.
-type life() :: {pat_cells:epoch(), pat_entries:thread(), [pat_names:weighted()], pat_entries:stamp()}.
%% What it has to do: its control, and then the frames, each with the value that comes before.
-type work() :: {module(), control(), [frame()]}.
-type control() :: {Function :: atom(), Values :: list()} | {value, term()}.
-type frame() :: {Function :: atom(), Values :: list()}.

%% ---- what the translated code calls

-spec local(pos_integer()) -> ok.
local(Steps) ->
    case pat_entries:spend(Steps) of
        counted -> ok;
        noted -> release_noted()
    end.

%% One name of the mailbox more, and one less: in a local step, or right behind a shared act, as a part of it.
-spec dup(pat_names:name()) -> ok.
dup(Name) -> pat_names:add(Name).

-spec drop(pat_names:name()) -> ok.
drop(Name) ->
    case pat_names:lose(Name) of
        kept -> ok;
        {last, Weight} -> put(gone, [{Name, Weight} | get(gone)]), ok
    end.

-spec drop_now(pat_names:name()) -> ok.
drop_now(Name) ->
    case pat_names:lose(Name) of
        kept -> ok;
        {last, Weight} -> give_back(Name, Weight)
    end.

-spec new(non_neg_integer(), home()) -> pat_names:name().
new(Steps, Home) ->
    Stamp = pat_entries:note(0, Steps, new),
    Name = make(Home, Stamp),
    pat_names:have([{Name, pat_weight:whole()}]),
    release(),
    Name.

make(here, Stamp) ->
    Number = get(boxes_made) + 1,
    put(boxes_made, Number),
    put(boxes, (get(boxes))#{Number => pat_mailbox:new(Stamp)}),
    {self(), Number};
make(apart, Stamp) -> pat_host:start(pat_place:next(get(thread)), Stamp).

-spec send(non_neg_integer(), pat_names:given(), 0..31, list(), [pat_names:given()]) -> ok.
send(Steps, {{Keeper, Number}, _} = Target, Tag, Values, Names) ->
    Left = pay(Steps),
    Weights = pat_names:hand_on(Names),
    Weight = pat_names:hand_over(Target),
    Stamp = pat_entries:note(0, Left, send),
    Sends = pat_post:count_send(),
    pat_post:transmit(Keeper, {message, Number, {Tag, Values, Weights, get(thread), Sends, Stamp}, Weight}),
    release().

%% With a name of which the new thread alone will ever receive, it runs in the process that keeps that mailbox.
-spec spawn(non_neg_integer(), module(), atom(), list(), [pat_names:given()], none | pat_names:name()) -> ok.
spawn(Steps, Module, Function, Values, Names, Home) ->
    Place = case Home of none -> pat_place:next(get(thread)); {Keeper, _} -> pat_place:of_node(node(Keeper)) end,
    Thread = pat_place:number(Place),
    Weights = pat_names:hand_on(Names),
    Stamp = pat_entries:note(0, Steps, {spawn, Thread}),
    begin_at(Home, Place, {get(epoch), Thread, Weights, Stamp}, {Module, {Function, Values}, []}),
    release().

begin_at(none, Place, Life, Work) ->
    pat_post:count_post(),
    _ = case pat_place:node_of(Place) of
        Node when Node =:= node() -> erlang:spawn(?MODULE, start, [Life, Work]);
        Node -> erlang:spawn_request(Node, ?MODULE, start, [Life, Work], [{reply, no}])
    end,
    ok;
begin_at({Keeper, _}, _, Life, Work) -> pat_post:post(Keeper, {adopt, Life, Work}).

-spec print(non_neg_integer(), integer() | boolean() | binary()) -> ok.
print(Steps, Value) ->
    _ = pat_entries:note(0, Steps, {print, text(Value)}),
    release().

text(Value) when is_integer(Value) -> integer_to_binary(Value);
text(Value) when is_atom(Value) -> atom_to_binary(Value);
text(Value) -> Value.

%% Waits for a message whose tag is in the mask, or, where it may be freed here, for that.
-spec guard(non_neg_integer(), pat_names:name(), pat_mailbox:mask(), boolean()) -> {0..31, list()} | freed.
guard(Steps, {Keeper, Number} = Name, Mask, Free) ->
    local(Steps),
    release_noted(),
    case Keeper =:= self() of
        true -> pat_guard:serve(Number, Mask, Free);
        false -> pat_guard:ask(Name, Mask, Free)
    end.

%% ---- weights of names that went

%% They go home with the stamp of an entry that is behind their going: a free stands behind it then.
release() ->
    case get(gone) of
        [] -> ok;
        _ -> lists:foreach(fun({Name, Weight}) -> give_back(Name, Weight) end, pat_names:gone())
    end.

%% A guard may be where the thread waits for whoever waits for these weights, and behind an entry for a portion steps may be left
%% in which names went: so an entry is made first.
release_noted() ->
    case get(gone) of
        [] -> ok;
        _ -> pat_entries:note_steps(), release()
    end.

give_back({Keeper, Number}, Weight) -> pat_post:post(Keeper, {weight, Number, Weight, pat_entries:clock()}).

%% ---- leave to send

%% A send needs leave, since only so many messages may be pending. The steps that are to be noted with it: a thread that may have
%% to wait counts them before.
pay(Steps) ->
    Cells = pat_cells:kept(),
    case atomics:sub_get(Cells, ?CREDIT, 1) of
        Left when Left >= 0 -> Steps;
        _ ->
            atomics:add(Cells, ?CREDIT, 1),
            local(Steps),
            release_noted(),
            pat_post:post(pat_credit, {want, self()}),
            paid()
    end.

paid() ->
    case pat_post:next() of
        credit -> 0;
        Other -> pat_guard:keep(Other), paid()
    end.

%% ---- beginning and end

%% (a thread that was on its way here when its epoch ended is none)
-spec start(life(), work()) -> ok.
start({Epoch, _, _, _} = Life, Work) ->
    case pat_cells:epoch() of
        Epoch -> adopt(#{}, Life, Work);
        _ -> ok
    end.

%% In a process that keeps these mailboxes.
-spec adopt(#{pos_integer() => pat_mailbox:mailbox()}, life(), work()) -> ok.
adopt(Boxes, {Epoch, Thread, Weights, Stamp}, {Module, Control, Frames}) ->
    put(epoch, Epoch), put(boxes, Boxes), put(boxes_made, max(1, map_size(Boxes))),
    pat_post:begin_thread(),
    pat_entries:begin_thread(Thread, Stamp),
    pat_names:begin_thread(Weights),
    try
        _ = go_on(Module, Frames, first(Module, Control)),
        ended()
    catch
        Class:Reason:Stack -> pat_node:failed({Thread, Class, Reason, Stack})
    end.

first(_, {value, Value}) -> Value;
first(Module, {Function, Values}) -> apply(Module, Function, Values).

go_on(_, [], Value) -> Value;
go_on(Module, [{Function, Values} | Below], Value) -> go_on(Module, Below, apply(Module, Function, [Value | Values])).

ended() ->
    _ = pat_entries:note(0, 0, 'end'),
    release(),
    {[], Boxes} = {pat_names:all(), get(boxes)},
    0 = map_size(Boxes),
    pat_post:idle().
