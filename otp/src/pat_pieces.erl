%% The history's text, piece by piece, each in a file of its own, so that each can be judged while the run goes on, and be let go.
-module(pat_pieces).
-export([first/2, size/1, whole/1, write/2, next/2]).
-export_type([pieces/0]).

%% A piece has so many entries (`size`); so many are `whole`. The file that is being written has this name, and one of a whole piece
%% its number behind it.
-record(pieces, {name :: file:filename(), file :: file:io_device(), size :: pos_integer(), whole = 0 :: non_neg_integer()}).
-opaque pieces() :: #pieces{}.

-spec first(file:filename(), pos_integer()) -> pieces().
first(Name, Size) -> #pieces{name = Name, file = opened(Name), size = Size}.

opened(Name) ->
    {ok, File} = file:open(Name, [write, raw, binary]),
    File.

-spec size(pieces()) -> pos_integer().
size(#pieces{size = Size}) -> Size.

-spec whole(pieces()) -> non_neg_integer().
whole(#pieces{whole = Whole}) -> Whole.

-spec write(iodata(), pieces()) -> ok.
write(Lines, #pieces{file = File}) -> ok = file:write(File, Lines).

%% With these lines the piece is whole.
-spec next(iodata(), pieces()) -> pieces().
next(Lines, #pieces{name = Name, file = File, whole = Whole} = Pieces) ->
    ok = write(Lines, Pieces),
    ok = file:close(File),
    ok = file:rename(Name, Name ++ "." ++ integer_to_list(Whole)),
    pat_run:piece(),
    Pieces#pieces{file = opened(Name), whole = Whole + 1}.
