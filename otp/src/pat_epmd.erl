%% Where nodes listen, in place of the port mapper: a node's name ends with its port, as in pat_2_40123@127.0.0.1. So no daemon
%% is needed or left behind.
-module(pat_epmd).
-export([start_link/0, register_node/2, register_node/3, listen_port_please/2, port_please/2, port_please/3, address_please/3,
         names/1]).

%% The version of the distribution's handshake.
-define(VERSION, 6).

-spec start_link() -> ignore.
start_link() -> ignore.

-spec register_node(term(), inet:port_number()) -> {ok, 1..3}.
register_node(Name, Port) -> register_node(Name, Port, inet).

-spec register_node(term(), inet:port_number(), inet | inet6) -> {ok, 1..3}.
register_node(_, _, _) -> {ok, rand:uniform(3)}.

-spec listen_port_please(atom() | string(), term()) -> {ok, inet:port_number()}.
listen_port_please(Name, _) -> {ok, port(Name)}.

-spec port_please(atom() | string(), term()) -> {port, inet:port_number(), ?VERSION}.
port_please(Name, _) -> {port, port(Name), ?VERSION}.

-spec port_please(atom() | string(), term(), term()) -> {port, inet:port_number(), ?VERSION}.
port_please(Name, Host, _) -> port_please(Name, Host).

-spec address_please(term(), string(), inet | inet6) -> {ok, inet:ip_address()} | {error, inet:posix()}.
address_please(_, Host, Family) -> inet:getaddr(Host, Family).

-spec names(term()) -> {error, address}.
names(_) -> {error, address}.

port(Name) when is_atom(Name) -> port(atom_to_list(Name));
port(Name) ->
    [Local | _] = string:split(Name, "@"),
    list_to_integer(lists:last(string:lexemes(Local, "_"))).
