%% A mailbox: its messages, by tag in the order in which they came, and the weight that is home. Data alone: it is kept by the
%% thread that receives from it, or by a process of its own (pat_host).
-module(pat_mailbox).
-export([new/1, filled/3, keep/4, give_back/3, take/2, fits/2, freed_at/2]).
-export_type([mailbox/0, message/0, mask/0]).

-record(mailbox, {home = 0 :: pat_weight:weight(), released :: pat_entries:stamp(), count = 0 :: non_neg_integer(),
                  queues = #{} :: #{tag() => queue:queue({non_neg_integer(), message()})}}).
-opaque mailbox() :: #mailbox{}.
-type tag() :: 0..31.
-type mask() :: non_neg_integer().
%% Who sent it, as its how manieth message, and when; and the weights of the names that it carries.
-type message() :: {tag(), Values :: list(), [{pat_names:name(), pat_weight:weight()}], From :: pat_entries:thread(),
                    Number :: non_neg_integer(), pat_entries:stamp()}.

-spec new(pat_entries:stamp()) -> mailbox().
new(Stamp) -> #mailbox{released = Stamp}.

%% As it is when an epoch begins: with this weight at home and these messages, in the order in which they were sent.
-spec filled(pat_weight:weight(), pat_entries:stamp(), [message()]) -> mailbox().
filled(Home, Stamp, Messages) ->
    lists:foldl(fun(Message, Mailbox) -> keep(Message, 0, Stamp, Mailbox) end, #mailbox{home = Home, released = Stamp}, Messages).

-spec keep(message(), pat_weight:weight(), pat_entries:stamp(), mailbox()) -> mailbox().
keep(Message, Weight, Stamp, Mailbox) ->
    #mailbox{count = Count, queues = Queues} = Back = give_back(Weight, Stamp, Mailbox),
    Tag = element(1, Message),
    Queue = case Queues of #{Tag := Old} -> Old; _ -> queue:new() end,
    Back#mailbox{count = Count + 1, queues = Queues#{Tag => queue:in({Count, Message}, Queue)}}.

%% A weight comes home with the stamp of the entry in which its name went.
-spec give_back(pat_weight:weight(), pat_entries:stamp(), mailbox()) -> mailbox().
give_back(Weight, Stamp, #mailbox{home = Home, released = Released} = Mailbox) ->
    Mailbox#mailbox{home = pat_weight:add(Home, Weight), released = max(Released, Stamp)}.

%% The message that came first of those whose tag is in the mask.
-spec take(mask(), mailbox()) -> {message(), mailbox()} | none.
take(_, #mailbox{queues = Queues}) when map_size(Queues) =:= 0 -> none;
take(Mask, #mailbox{queues = Queues} = Mailbox) ->
    case lists:sort([{element(1, queue:get(Queue)), Tag} || {Tag, Queue} <- maps:to_list(Queues), fits(Tag, Mask)]) of
        [] -> none;
        [{_, Tag} | _] ->
            #{Tag := Queue} = Queues,
            {{value, {_, Message}}, Rest} = queue:out(Queue),
            {Message, Mailbox#mailbox{queues = case queue:is_empty(Rest) of
                                                   true -> maps:remove(Tag, Queues);
                                                   false -> Queues#{Tag := Rest}
                                               end}}
    end.

-spec fits(tag(), mask()) -> boolean().
fits(Tag, Mask) -> (Mask bsr Tag) band 1 =:= 1.

%% Behind which stamp it may be freed by a thread that has this weight: where no message is there, and all weight is home or
%% with that thread.
-spec freed_at(pat_weight:weight(), mailbox()) -> pat_entries:stamp() | not_yet.
freed_at(Weight, #mailbox{home = Home, released = Released, queues = Queues}) ->
    Whole = pat_weight:whole(),
    case map_size(Queues) =:= 0 andalso pat_weight:add(Home, Weight) of
        Whole -> Released;
        _ -> not_yet
    end.
