%% The numbers that all processes of a node share, in one array of atomics, and what a node knows of the run. Both are made anew
%% for each epoch: a run begins with the first, and whenever a node is lost another one begins, on those that are left.
-module(pat_cells).
-export([make/0, all/0, keep/0, kept/0, counts/0, set_run/1, run/0, epoch/0]).
-export_type([counts/0, run/0, epoch/0]).
-include("pat_otp.hrl").

-type counts() :: {Posted :: non_neg_integer(), Taken :: non_neg_integer(), Active :: integer()}.
-type epoch() :: pos_integer().
%% `nodes` are those with which the run began, and `left` the places of those that haven't been lost.
-type run() :: #{epoch := epoch(), place := non_neg_integer(), nodes := tuple(), places := #{node() => pos_integer()},
                 left := tuple(), head := node(), spread := main | all}.

-spec make() -> ok.
make() -> persistent_term:put(?MODULE, atomics:new(?CELLS, [{signed, true}])).

-spec all() -> atomics:atomics_ref().
all() -> persistent_term:get(?MODULE).

%% A thread, which needs them at each act and doesn't outlive its epoch, keeps them in its process dictionary.
-spec keep() -> ok.
keep() ->
    put(cells, all()),
    ok.

-spec kept() -> atomics:atomics_ref().
kept() -> get(cells).

%% The order of reading matters: whoever is seen idle here has added what it took before (pat_rest).
-spec counts() -> counts().
counts() ->
    Cells = all(),
    Active = atomics:get(Cells, ?ACTIVE),
    {atomics:get(Cells, ?POSTED), atomics:get(Cells, ?TAKEN), Active}.

-spec set_run(run()) -> ok.
set_run(Run) -> persistent_term:put({?MODULE, run}, Run).

-spec run() -> run().
run() -> persistent_term:get({?MODULE, run}).

-spec epoch() -> epoch().
epoch() -> #{epoch := Epoch} = run(), Epoch.
