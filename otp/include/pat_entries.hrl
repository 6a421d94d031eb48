%% How an entry is packed: a number of its stamp, its local steps and its act, and behind it what the act has besides: of a spawn the
%% new thread, of a print its text, of a receive who sent the message, and as its how manieth.
-define(STEPS, 3).
-define(STAMP, 12).
-define(ACTS, (1 bsl ?STEPS - 1)).
-define(MOST_STEPS, (1 bsl (?STAMP - ?STEPS) - 1)).
-define(LOW, (1 bsl ?STAMP - 1)).
-define(NONE, 0).
-define(NEW, 1).
-define(SEND, 2).
-define(FREE, 3).
-define(END, 4).
-define(SPAWN, 5).
-define(PRINT, 6).
-define(RECEIVE, 7).
