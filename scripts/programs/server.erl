%% listed
-module(server).
-export([start/0, loop/1, call/2]).

start() -> spawn(server, loop, [[]]).

loop(State) ->
    receive
        {call, From, {push, X}} -> From ! {self(), ok}, loop([X | State]);
        {call, From, pop} when State =/= [] ->
            [H | T] = State,
            From ! {self(), {ok, H}},
            loop(T);
        {call, From, pop} -> From ! {self(), empty}, loop(State);
        stop -> exit(normal)
    end.

call(Pid, Request) ->
    Pid ! {call, self(), Request},
    receive {Pid, Reply} -> Reply end.
