%% Weights: exact parts of a whole, which never run out. A mailbox begins with the whole; each name of it that leaves a thread
%% takes a part along. A weight is a number of units, or a list of such numbers, each of units that are a ?WHOLE-th of those
%% before: [2, 5] is 2 + 5/?WHOLE. So the last unit can be split as well, and nobody has to be asked for more.
-module(pat_weight).
-export([whole/0, add/2, share/1, little/1]).
-export_type([weight/0]).

-ifndef(WHOLE).
-define(WHOLE, (1 bsl 56)).
-endif.

-type weight() :: non_neg_integer() | [non_neg_integer(), ...].

-spec whole() -> weight().
whole() -> ?WHOLE.

-spec add(weight(), weight()) -> weight().
add(A, B) when is_integer(A), is_integer(B) -> A + B;
add(A, B) -> plain(sum(levels(A), levels(B))).

%% A part to give away, small against what is split, and the rest.
-spec share(weight()) -> {weight(), weight()}.
share(Weight) when is_integer(Weight), Weight > 1 ->
    Part = portion(Weight),
    {Part, Weight - Part};
share(Weight) -> split(Weight).

%% The same for a part that comes home at once: the least there is.
-spec little(weight()) -> {weight(), weight()}.
little(Weight) when is_integer(Weight), Weight > 1 -> {1, Weight - 1};
little(Weight) -> split(Weight).

split(Weight) ->
    {Part, Rest} = split_levels(levels(Weight)),
    {plain(Part), plain(Rest)}.

split_levels([Count]) when Count > 1 ->
    Part = portion(Count),
    {[Part], [Count - Part]};
split_levels([1]) -> split_levels([0, ?WHOLE]);
split_levels([Count | Levels]) ->
    {Part, Rest} = split_levels(Levels),
    {[0 | Part], [Count | Rest]}.

portion(Weight) when Weight >= 1 bsl 40 -> 1 bsl 24;
portion(Weight) when Weight >= 1 bsl 20 -> 1 bsl 10;
portion(Weight) when Weight >= 1 bsl 8 -> 1 bsl 4;
portion(_) -> 1.

levels(Weight) when is_integer(Weight) -> [Weight];
levels(Weight) -> Weight.

sum([A | As], [B | Bs]) ->
    case sum(As, Bs) of
        [C | Cs] when C >= ?WHOLE -> [A + B + 1, C - ?WHOLE | Cs];
        Cs -> [A + B | Cs]
    end;
sum([], Bs) -> Bs;
sum(As, []) -> As.

%% Without empty levels at the end, so that equal weights are the same term.
plain(Levels) ->
    case lists:dropwhile(fun(Count) -> Count =:= 0 end, lists:reverse(Levels)) of
        [] -> 0;
        [Units] -> Units;
        Counts -> lists:reverse(Counts)
    end.
