%% The application: on the head it makes the history, on every other node it runs the program's threads. The node ends with it.
-module(pat_otp_app).
-behaviour(application).
-export([start/2, stop/1]).

-spec start(application:start_type(), term()) -> {ok, pid()} | {error, term()}.
start(_, _) ->
    pat_cells:make(),
    {ok, Role} = application:get_env(pat_otp, role),
    case pat_otp_sup:start_link(Role) of
        {ok, Pid} -> {ok, Pid};
        ignore -> {error, ignore};
        {error, Reason} -> {error, Reason}
    end.

%% (a permanent application's end would be told on standard output, where the program's lines alone may be)
-spec stop(term()) -> no_return().
stop(_) -> halt(1).
