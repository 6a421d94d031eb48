%% A thread at a guard: it waits for a message whose tag is in the mask, or, where the mailbox may be freed there, for that. What
%% comes meanwhile for the other mailboxes that its process keeps is kept.
-module(pat_guard).
-export([serve/3, ask/3, keep/1]).

-type answer() :: {0..31, list()} | freed.

%% At a mailbox that this process keeps.
-spec serve(pos_integer(), pat_mailbox:mask(), boolean()) -> answer().
serve(Number, Mask, Free) ->
    #{Number := Mailbox} = Boxes = get(boxes),
    case pat_mailbox:take(Mask, Mailbox) of
        {Message, Rest} ->
            put(boxes, Boxes#{Number := Rest}),
            received(Message);
        none -> freed_or_later(Number, Mask, Free, Mailbox, Boxes)
    end.

freed_or_later(Number, Mask, Free, Mailbox, Boxes) ->
    Name = {self(), Number},
    case Free andalso pat_mailbox:freed_at(pat_names:weight(Name), Mailbox) of
        Stamp when is_integer(Stamp) ->
            put(boxes, maps:remove(Number, Boxes)),
            freed(Name, Stamp);
        _ -> await(Number, Mask, Free)
    end.

await(Number, Mask, Free) ->
    case pat_post:next() of
        {message, Number, {Tag, _, _, _, _, Stamp} = Message, Weight} when (Mask bsr Tag) band 1 =:= 1 ->
            #{Number := Mailbox} = Boxes = get(boxes),
            put(boxes, Boxes#{Number := pat_mailbox:give_back(Weight, Stamp, Mailbox)}),
            received(Message);
        {message, _, _, _} = Other -> keep(Other), await(Number, Mask, Free);
        Weight -> keep(Weight), serve(Number, Mask, Free)
    end.

%% At a mailbox that another process keeps.
-spec ask(pat_names:name(), pat_mailbox:mask(), boolean()) -> answer().
ask({Keeper, _} = Name, Mask, Free) ->
    pat_post:post(Keeper, {ask, self(), Mask, Free, pat_names:weight(Name)}),
    answered(Name).

answered(Name) ->
    case pat_post:next() of
        {given, Message} -> received(Message);
        {freed, Stamp} -> freed(Name, Stamp);
        Other -> keep(Other), answered(Name)
    end.

received({Tag, Values, Weights, From, Sent, Stamp}) ->
    _ = pat_entries:note(Stamp, 0, {'receive', From, Sent}),
    pat_names:have(Weights),
    {Tag, Values}.

freed(Name, Stamp) ->
    _ = pat_entries:note(Stamp, 0, free),
    pat_names:forget(Name),
    freed.

%% What comes for a mailbox of this process while the thread doesn't ask for it.
-spec keep({message, pos_integer(), pat_mailbox:message(), pat_weight:weight()}
           | {weight, pos_integer(), pat_weight:weight(), pat_entries:stamp()}) -> term().
keep({message, Number, {_, _, _, _, _, Stamp} = Message, Weight}) ->
    change(Number, fun(Mailbox) -> pat_mailbox:keep(Message, Weight, Stamp, Mailbox) end);
keep({weight, Number, Weight, Stamp}) ->
    change(Number, fun(Mailbox) -> pat_mailbox:give_back(Weight, Stamp, Mailbox) end).

change(Number, Change) ->
    #{Number := Mailbox} = Boxes = get(boxes),
    put(boxes, Boxes#{Number := Change(Mailbox)}).
