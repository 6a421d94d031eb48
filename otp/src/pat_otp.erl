%% Starts the application on a node, `erl .. -s pat_otp`, with all its modules loaded, so that no thread waits for one.
-module(pat_otp).
-export([start/0]).

-spec start() -> ok.
start() ->
    case started() of
        {ok, _} -> ok;
        {error, Reason} ->
            io:format(standard_error, "pat_otp: ~0p~n", [Reason]),
            halt(1)
    end.

started() ->
    ok = application:load(pat_otp),
    {ok, Modules} = application:get_key(pat_otp, modules),
    case code:ensure_modules_loaded([queue | Modules]) of
        ok -> application:ensure_all_started(pat_otp);
        {error, Which} -> {error, Which}
    end.
