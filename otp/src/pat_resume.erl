%% A node at an epoch's end and at the next one's beginning. All its threads and mailboxes end, with what they did behind the cut;
%% then there are processes that wait, so that each has a name for the others, and these become the threads and mailboxes that the
%% epoch begins with.
-module(pat_resume).
-export([end_all/0, keepers/1, begin_all/1, keeper/0]).
-export_type([word/0]).
-include("pat_otp.hrl").

%% What a process becomes.
-type word() :: {mailbox, pat_mailbox:mailbox()}
              | {thread, #{pos_integer() => pat_mailbox:mailbox()}, pat_thread:life(), pat_thread:work()}.

%% Is called by a process that gets no other messages, since there may be very many. Whoever begins after this look finds that its
%% epoch is over.
-spec end_all() -> ok.
end_all() ->
    Ours = [Pid || Pid <- processes(), is_ours(process_info(Pid, initial_call))],
    lists:foreach(fun(Pid) -> monitor(process, Pid), exit(Pid, kill) end, Ours),
    lists:foreach(fun(_) -> receive {'DOWN', _, process, _, _} -> ok end end, Ours).

is_ours({initial_call, {Module, Function, _}}) ->
    lists:member({Module, Function}, [{pat_thread, start}, {pat_host, init}, {?MODULE, keeper}]);
is_ours(undefined) -> false.

-spec keepers(non_neg_integer()) -> [pid()].
keepers(Count) -> [spawn(?MODULE, keeper, []) || _ <- lists:seq(1, Count)].

-spec begin_all([{pid(), word()}]) -> ok.
begin_all(Words) ->
    Threads = length([thread || {_, Word} <- Words, element(1, Word) =:= thread]),
    atomics:add(pat_cells:all(), ?POSTED, Threads),
    lists:foreach(fun({Pid, Word}) -> Pid ! Word end, Words).

%% Messages of others may come before its word does; they wait.
-spec keeper() -> ok.
keeper() ->
    receive
        {mailbox, Mailbox} -> pat_host:go_on(Mailbox);
        {thread, Boxes, Life, Work} -> pat_thread:adopt(Boxes, Life, Work)
    end.
