%% A timer of a process's own is cancelled, or has rung.
-module(cancelled).
-export([main/0, timer/2]).

main() -> ring(4).

ring(0) -> ok;
ring(N) ->
    Timer = spawn(cancelled, timer, [self(), 1]),
    receive after N rem 3 -> ok end,
    Timer ! cancel,
    receive {Timer, What} -> erlang:display({N, What}) end,
    ring(N - 1).

timer(To, Ms) -> receive cancel -> To ! {self(), cancelled} after Ms -> To ! {self(), rang} end.
