%% Where threads and mailboxes go. A place is a node's number in the run, from 1, which it keeps whatever others are lost. What the
%% first thread makes is spread over the places, one after another; what others make stays where they are, or is spread as well,
%% if the run says so.
-module(pat_place).
-export([next/1, node_of/1, of_node/1, number/1, numbered/2, of_thread/1]).
-export_type([place/0]).
-include("pat_otp.hrl").

-type place() :: pos_integer().

-spec next(pat_entries:thread()) -> place().
next(Thread) ->
    case pat_cells:run() of
        #{left := {Only}} -> Only;
        #{spread := main, place := Here} when Thread >= ?SECOND -> Here;
        #{left := Left, place := Here} -> element((Here + turn()) rem tuple_size(Left) + 1, Left)
    end.

turn() ->
    Turn = case get(placed) of undefined -> 0; Last -> Last end,
    put(placed, Turn + 1),
    Turn.

-spec node_of(place()) -> node().
node_of(Place) -> #{nodes := Nodes} = pat_cells:run(), element(Place, Nodes).

-spec of_node(node()) -> place().
of_node(Node) -> #{places := #{Node := Place}} = pat_cells:run(), Place.

%% A number that no other thread of the run has.
-spec number(place()) -> pat_entries:thread().
number(Place) ->
    #{place := Here} = pat_cells:run(),
    Count = atomics:add_get(pat_cells:all(), ?THREADS, 1),
    ((Count bsl ?PLACE_BITS) bor Here) bsl ?PLACE_BITS bor Place.

%% The number of a thread that an epoch begins with: its number in the history, as the head's own place would give it.
-spec numbered(non_neg_integer(), place()) -> pat_entries:thread().
numbered(Number, Place) -> (Number bsl (2 * ?PLACE_BITS)) bor Place.

-spec of_thread(pat_entries:thread()) -> place().
of_thread(Thread) -> Thread band (1 bsl ?PLACE_BITS - 1).
