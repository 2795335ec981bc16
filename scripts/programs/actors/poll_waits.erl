%% A process waits for a millisecond at a time, and says how many of its waits were over before each message.
-module(poll_waits).
-export([main/0, tell/3]).

main() ->
    Self = self(),
    spawn(poll_waits, tell, [Self, a, 1]),
    spawn(poll_waits, tell, [Self, b, 3]),
    collect(2, 0).

collect(0, _) -> ok;
collect(N, Waits) ->
    receive
        Name -> erlang:display({Name, Waits}), collect(N - 1, 0)
    after 1 ->
        collect(N, Waits + 1)
    end.

tell(To, Name, Ms) -> receive after Ms -> To ! Name end.
