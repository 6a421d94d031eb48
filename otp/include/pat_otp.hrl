%% The cells that all processes of a node share (pat_cells), by their number in the array.
-define(CELLS, 9).
%% Which turn of the log it is, doubled, and one more while entries are held back.
-define(TURN, 1).
%% A stamp that every entry of this turn is above.
-define(FLOOR, 2).
%% How many threads have entries of a turn at hand: two cells, for this turn and the one before.
-define(OPEN(Turn), 3 + ((Turn) bsr 1) band 1).
%% Messages posted and taken, threads that neither wait nor have ended: what rest is told by.
-define(POSTED, 5).
-define(TAKEN, 6).
-define(ACTIVE, 7).
%% How many messages may still be sent from here before more leave is asked for.
-define(CREDIT, 8).
%% How many threads were numbered here.
-define(THREADS, 9).

%% A thread's number says where it runs: this many bits for the place.
-define(PLACE_BITS, 6).
%% As many local steps make an entry of their own.
-define(PORTION, 256).

%% Numbers of all threads but the first are as high (pat_place).
-define(SECOND, 1 bsl (2 * ?PLACE_BITS)).
%% No thread has this number: as the sender of messages that were sent in another epoch. Their numbers are those of the history.
-define(SENT_BEFORE, 0).
