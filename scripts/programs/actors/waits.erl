%% Waits of 0 to 3 milliseconds, by a number that is not constant, against a message.
-module(waits).
-export([main/0, tell/2]).

main() -> try_each([0, 1, 2, 3, 0, 1]).

try_each([]) -> ok;
try_each([Ms | Rest]) ->
    Pid = spawn(waits, tell, [self(), Ms]),
    receive {Pid, Answer} -> erlang:display({Ms, Answer}) after Ms -> erlang:display({Ms, late}) end,
    flush(),
    try_each(Rest).

tell(To, Ms) -> receive after Ms -> To ! {self(), here} end.

flush() -> receive Late -> erlang:display({flushed, element(2, Late)}), flush() after 2 -> ok end.
