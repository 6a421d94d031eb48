%% What a thread notes of its acts. An entry has a Lamport stamp; entries stay with the thread until the log's turn changes or
%% the thread waits for long, and then go to the node's log together (pat_log), as one binary, which nobody copies on its way to the
%% history.
%%
%% Of a turn the thread opens its part before the first entry and closes it when its entries are on their way; so the log knows
%% when all entries of a turn have come. Kept in the process dictionary: `thread`, and as one term `noted`, since it changes with
%% each act.
-module(pat_entries).
-export([begin_thread/2, spend/1, note/3, note_steps/0, close/0, clock/0, unpacked/1, bound/1]).
-export_type([stamp/0, thread/0, act/0, run/0, words/0]).
-include("pat_otp.hrl").
-include("pat_entries.hrl").

-type stamp() :: non_neg_integer().
-type thread() :: non_neg_integer().
-type act() :: none | new | send | free | 'end' | {spawn, thread()} | {print, binary()} | {'receive', thread(), non_neg_integer()}.
%% A thread, and some of its entries that are one behind another.
-type run() :: {thread(), binary()}.
-type words() :: [non_neg_integer() | binary()].

%% `turn` is the one in which the thread has its part open (there is one entry at least then); `steps` are local ones since the last
%% entry, which has the stamp `clock`. The entries are packed, the last one's last word first.
-record(noted, {turn = none :: none | non_neg_integer(), clock :: stamp(), steps = 0 :: non_neg_integer(), entries = [] :: words()}).

-spec begin_thread(thread(), stamp()) -> ok.
begin_thread(Thread, Stamp) ->
    put(thread, Thread), put(noted, #noted{clock = Stamp}),
    ok.

-spec clock() -> stamp().
clock() -> #noted{clock = Clock} = get(noted), Clock.

%% Local steps are taken. Says whether an entry had to be made for them.
-spec spend(non_neg_integer()) -> noted | counted.
spend(0) -> counted;
spend(Steps) ->
    #noted{steps = Before} = Noted = get(noted),
    case Before + Steps of
        All when All < ?PORTION -> put(noted, Noted#noted{steps = All}), counted;
        All ->
            {Left, Next} = portions(All, Noted),
            put(noted, Next#noted{steps = Left}),
            noted
    end.

%% As many entries as there are portions in these steps; the steps that are left.
portions(Steps, Noted) when Steps >= ?PORTION -> portions(Steps - ?PORTION, entry(0, ?PORTION, none, Noted));
portions(Steps, Noted) -> {Steps, Noted}.

%% An entry for these local steps, with those that were counted before, and the act: behind the thread's last entry and behind
%% the given stamp. Its own stamp.
-spec note(stamp(), non_neg_integer(), act()) -> stamp().
note(After, Steps, Act) ->
    #noted{steps = Before} = Noted = get(noted),
    {All, Rest} = portions(Before + Steps, Noted),
    #noted{clock = Stamp} = Next = entry(After, All, Act, Rest),
    put(noted, Next),
    Stamp.

%% Those that were counted, where there are any.
-spec note_steps() -> ok.
note_steps() ->
    case get(noted) of
        #noted{steps = 0} -> ok;
        _ -> _ = note(0, 0, none), ok
    end.

%% With this entry more, and no steps.
entry(After, Steps, Act, Noted) ->
    #noted{clock = Clock, entries = Entries} = Open = opened(Noted),
    Stamp = max(Clock, After) + 1,
    Open#noted{clock = Stamp, steps = 0, entries = packed(Stamp, Steps, Act, Entries)}.

%% With its part open in the turn that it is.
opened(#noted{turn = Turn} = Noted) ->
    Cells = pat_cells:kept(),
    case atomics:get(Cells, ?TURN) of
        Turn -> Noted;
        Now -> open(Now, Cells, closed(Noted))
    end.

open(Turn, Cells, #noted{clock = Clock} = Noted) ->
    atomics:add(Cells, ?OPEN(Turn), 1),
    case atomics:get(Cells, ?TURN) of
        Turn when Turn band 1 =:= 0 -> Noted#noted{turn = Turn, clock = max(Clock, atomics:get(Cells, ?FLOOR))};
        Other ->
            atomics:sub(Cells, ?OPEN(Turn), 1),
            pause(Other band 1),
            open(atomics:get(Cells, ?TURN), Cells, Noted)
    end.

%% The entries of this node are too far ahead of the history.
pause(0) -> ok;
pause(1) -> receive after 1 -> ok end.

-spec close() -> ok.
close() ->
    case get(noted) of
        #noted{turn = none} -> ok;
        Noted -> put(noted, closed(Noted)), ok
    end.

closed(#noted{turn = none} = Noted) -> Noted;
closed(#noted{turn = Turn, clock = Clock, entries = Entries} = Noted) ->
    pat_log ! {entries, {get(thread), term_to_binary(Entries)}, Clock},
    atomics:sub(pat_cells:kept(), ?OPEN(Turn), 1),
    Noted#noted{turn = none, entries = []}.

%% ---- packed entries

packed(Stamp, Steps, Act, Rest) ->
    Front = Stamp bsl ?STAMP bor (Steps bsl ?STEPS),
    case Act of
        send -> [Front bor ?SEND | Rest];
        {'receive', From, Number} -> [Number, From, Front bor ?RECEIVE | Rest];
        none -> [Front bor ?NONE | Rest];
        new -> [Front bor ?NEW | Rest];
        free -> [Front bor ?FREE | Rest];
        {spawn, Thread} -> [Thread, Front bor ?SPAWN | Rest];
        {print, Text} -> [Text, Front bor ?PRINT | Rest];
        'end' -> [Front bor ?END | Rest]
    end.

%% The first entry's first word first.
-spec unpacked(binary()) -> words().
unpacked(Binary) -> lists:reverse(binary_to_term(Binary)).

%% The first words of all entries up to this stamp are less.
-spec bound(stamp()) -> non_neg_integer().
bound(Stamp) -> (Stamp + 1) bsl ?STAMP.
