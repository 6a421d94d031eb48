%% What a node consists of. What serves one epoch is ended and begun anew with the next one, and nothing else is started anew: a
%% log or a merger that has lost its state can't be mended, and the run ends there, with what is written. Threads and mailboxes
%% aren't children: they come and go by the hundred thousand, and a thread that fails ends the run (pat_node:failed).
-module(pat_otp_sup).
-behaviour(supervisor).
-export([start_link/1, begin_epoch/1, end_epoch/1]).
-export([init/1]).

-spec start_link(head | node) -> supervisor:startlink_ret().
start_link(Role) -> supervisor:start_link({local, ?MODULE}, ?MODULE, Role).

%% Starts these modules' processes with these words, in place of those of the epoch before.
-spec begin_epoch([{module(), [term()]}]) -> ok.
begin_epoch(Children) ->
    end_epoch([Module || {Module, _} <- Children]),
    lists:foreach(fun({Module, Words}) -> {ok, _} = supervisor:start_child(?MODULE, child(Module, Words)) end, Children).

-spec end_epoch([module()]) -> ok.
end_epoch(Modules) ->
    lists:foreach(fun(Module) ->
        _ = supervisor:terminate_child(?MODULE, Module),
        _ = supervisor:delete_child(?MODULE, Module)
    end, Modules).

-spec init(head | node) -> {ok, {supervisor:sup_flags(), [supervisor:child_spec()]}}.
init(Role) ->
    {ok, {#{strategy => one_for_all, intensity => 0, period => 1}, [child(Module, []) || Module <- modules(Role)]}}.

modules(node) -> [pat_node];
modules(head) -> [pat_history, pat_run].

child(Module, Words) -> #{id => Module, start => {Module, start_link, Words}}.
