%% The names of mailboxes that a thread has: for each mailbox how often, in control and frames together, and with what weight.
%% Kept in the process dictionary: `names`, and `gone`, the weights of names that went in local steps since the last entry.
-module(pat_names).
-export([begin_thread/1, add/1, lose/1, have/1, hand_on/1, hand_over/1, weight/1, forget/1, gone/0, all/0]).
-export_type([name/0, weighted/0, given/0]).

%% A mailbox's name is the process that keeps it and its number there.
-type name() :: {pid(), pos_integer()}.
-type weighted() :: {name(), pat_weight:weight()}.
%% A name that another thread or a message gets: the thread has it afterwards, or not.
-type given() :: {name(), stays | goes}.

-spec begin_thread([weighted()]) -> ok.
begin_thread(Names) ->
    put(names, #{}), put(gone, []),
    have(Names).

%% One name more of a mailbox that the thread has.
-spec add(name()) -> ok.
add(Name) ->
    #{Name := {Count, Weight}} = Names = get(names),
    put(names, Names#{Name := {Count + 1, Weight}}),
    ok.

%% One name less. The weight of the last one has to go home.
-spec lose(name()) -> kept | {last, pat_weight:weight()}.
lose(Name) ->
    case get(names) of
        #{Name := {1, Weight}} = Names -> put(names, maps:remove(Name, Names)), {last, Weight};
        #{Name := {Count, Weight}} = Names -> put(names, Names#{Name := {Count - 1, Weight}}), kept
    end.

%% Names come in, with their weights.
-spec have([weighted()]) -> ok.
have([]) -> ok;
have([{Name, Weight} | Others]) ->
    case get(names) of
        #{Name := {Count, Old}} = Names -> put(names, Names#{Name := {Count + 1, pat_weight:add(Old, Weight)}});
        Names -> put(names, Names#{Name => {1, Weight}})
    end,
    have(Others).

%% Others are to have these mailboxes as well: by names that leave the thread, or by copies of names that stay. The weights that
%% go with them.
-spec hand_on([given()]) -> [weighted()].
hand_on([]) -> [];
hand_on([{Name, Fate} | Others]) ->
    #{Name := {Count, All}} = Names = get(names),
    case left(Count, Fate) of
        0 ->
            put(names, maps:remove(Name, Names)),
            [{Name, All} | hand_on(Others)];
        Left ->
            {Part, Rest} = pat_weight:share(All),
            put(names, Names#{Name := {Left, Rest}}),
            [{Name, Part} | hand_on(Others)]
    end.

%% The same for a send's target: the weight goes home with the message.
-spec hand_over(given()) -> pat_weight:weight().
hand_over({Name, Fate}) ->
    #{Name := {Count, All}} = Names = get(names),
    case left(Count, Fate) of
        0 -> put(names, maps:remove(Name, Names)), All;
        Left ->
            {Part, Rest} = pat_weight:little(All),
            put(names, Names#{Name := {Left, Rest}}),
            Part
    end.

left(Count, stays) -> Count;
left(Count, goes) -> Count - 1.

%% The weight of all the thread's names of a mailbox.
-spec weight(name()) -> pat_weight:weight().
weight(Name) -> #{Name := {_, Weight}} = get(names), Weight.

%% The mailbox is freed.
-spec forget(name()) -> ok.
forget(Name) -> put(names, maps:remove(Name, get(names))), ok.

%% The weights that wait for the next entry; there are none then.
-spec gone() -> [weighted()].
gone() -> put(gone, []).

-spec all() -> [name()].
all() -> maps:keys(get(names)).
