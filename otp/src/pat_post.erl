%% Messages between a thread and other processes: all of them are counted, so that rest can be told (pat_rest).
%%
%% Kept in the process dictionary: `sends`, how many there were, and `counted`, how many there had been when the thread last waited
%% for long; `posted` and `taken`, other messages that it sent and those that it took since then.
-module(pat_post).
-export([begin_thread/0, post/2, count_post/0, count_send/0, transmit/2, next/0, idle/0]).
-include("pat_otp.hrl").

%% So many milliseconds a thread waits before it hands over what it has noted and counted.
-define(PATIENCE, 2).

%% (the message that began it is taken)
-spec begin_thread() -> ok.
begin_thread() ->
    pat_cells:keep(),
    active(),
    put(sends, 0), put(counted, 0), put(posted, 0), put(taken, 1),
    ok.

-spec post(pid() | atom(), term()) -> ok.
post(To, Message) ->
    count_post(),
    transmit(To, Message).

-spec count_post() -> ok.
count_post() -> put(posted, get(posted) + 1), ok.

%% The number of a thread's send, with which the message is counted.
-spec count_send() -> non_neg_integer().
count_send() ->
    Sends = get(sends),
    put(sends, Sends + 1),
    Sends.

-spec transmit(pid() | atom(), term()) -> ok.
transmit(To, Message) ->
    To ! Message,
    ok.

-spec next() -> term().
next() ->
    receive Message -> put(taken, get(taken) + 1), Message
    after ?PATIENCE ->
        idle(),
        receive Message -> active(), put(taken, 1), Message end
    end.

%% The thread waits for long: all that it has is handed over, local steps as an entry.
-spec idle() -> ok.
idle() ->
    pat_entries:note_steps(),
    pat_entries:close(),
    Cells = pat_cells:kept(),
    Sends = get(sends),
    atomics:add(Cells, ?POSTED, put(posted, 0) + Sends - put(counted, Sends)),
    atomics:add(Cells, ?TAKEN, put(taken, 0)),
    atomics:sub(Cells, ?ACTIVE, 1).

active() -> atomics:add(pat_cells:kept(), ?ACTIVE, 1).
