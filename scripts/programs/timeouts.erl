%% listed
-module(timeouts).
-export([ask/2, flush/0, forever/0, sleep/1, zero/1]).

ask(Pid, What) ->
    Pid ! {self(), What},
    receive
        {Pid, Answer} -> {ok, Answer};
        {'EXIT', Pid, Reason} -> {error, Reason}
    after 1000 -> timeout
    end.

flush() -> receive _ -> flush() after 0 -> ok end.

forever() -> receive stop -> ok after infinity -> never end.

sleep(T) -> receive after T -> ok end.

zero(T) -> receive {urgent, X} -> X after T -> receive X -> X after 10 -> none end end.
