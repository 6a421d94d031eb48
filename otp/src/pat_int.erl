%% Integers as the language has them: 64 bits with a sign, around which they wrap.
-module(pat_int).
-export([wrap/1]).

-define(LEAST, -16#8000000000000000).
-define(GREATEST, 16#7fffffffffffffff).
-define(ALL_BITS, 16#ffffffffffffffff).

-spec wrap(integer()) -> integer().
wrap(Number) when Number >= ?LEAST, Number =< ?GREATEST -> Number;
wrap(Number) -> ((Number - ?LEAST) band ?ALL_BITS) + ?LEAST.
