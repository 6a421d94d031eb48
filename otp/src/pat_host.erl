%% A mailbox in a process of its own, for as long as it isn't known who alone will receive from it. Where a thread is spawned that
%% alone does, this process becomes that thread (pat_thread:adopt).
-module(pat_host).
-export([start/2, init/2, go_on/1]).
-include("pat_otp.hrl").

%% The mailbox's number in its process.
-define(NUMBER, 1).

%% Who waits at a guard, for which tags, whether it may free the mailbox, and the weight of its names.
-type guard() :: none | {pid(), pat_mailbox:mask(), boolean(), pat_weight:weight()}.

-spec start(pat_place:place(), pat_entries:stamp()) -> pat_names:name().
start(Place, Stamp) ->
    case pat_place:node_of(Place) of
        Node when Node =:= node() -> {spawn(?MODULE, init, [get(epoch), Stamp]), ?NUMBER};
        Node -> {spawn(Node, ?MODULE, init, [get(epoch), Stamp]), ?NUMBER}
    end.

%% (one that was on its way here when its epoch ended is nobody's)
-spec init(pat_cells:epoch(), pat_entries:stamp()) -> ok.
init(Epoch, Stamp) ->
    case pat_cells:epoch() of
        Epoch -> loop(pat_mailbox:new(Stamp), none);
        _ -> ok
    end.

%% A mailbox that was there when the epoch began.
-spec go_on(pat_mailbox:mailbox()) -> ok.
go_on(Mailbox) -> loop(Mailbox, none).

-spec loop(pat_mailbox:mailbox(), guard()) -> ok.
loop(Mailbox, Guard) ->
    receive
        {message, ?NUMBER, {_, _, _, _, _, Stamp} = Message, Weight} ->
            serve(pat_mailbox:keep(Message, Weight, Stamp, Mailbox), Guard);
        {weight, ?NUMBER, Weight, Stamp} -> serve(pat_mailbox:give_back(Weight, Stamp, Mailbox), Guard);
        {ask, Thread, Mask, Free, Weight} -> serve(Mailbox, {Thread, Mask, Free, Weight});
        {adopt, Life, Work} -> pat_thread:adopt(#{?NUMBER => Mailbox}, Life, Work)
    end.

serve(Mailbox, none) -> taken(), loop(Mailbox, none);
serve(Mailbox, {Thread, Mask, Free, Weight} = Guard) ->
    case pat_mailbox:take(Mask, Mailbox) of
        {Message, Rest} -> answer(Thread, {given, Message}), loop(Rest, none);
        none ->
            case Free andalso pat_mailbox:freed_at(Weight, Mailbox) of
                Stamp when is_integer(Stamp) -> answer(Thread, {freed, Stamp});
                _ -> taken(), loop(Mailbox, Guard)
            end
    end.

answer(Thread, Message) ->
    atomics:add(pat_cells:all(), ?POSTED, 1),
    Thread ! Message,
    taken().

taken() -> atomics:add(pat_cells:all(), ?TAKEN, 1).
