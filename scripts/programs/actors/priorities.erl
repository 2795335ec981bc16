%% Urgent messages are taken first, then common ones, then any: which are there when it looks is open.
-module(priorities).
-export([main/0, send/3]).

main() ->
    Self = self(),
    spawn(priorities, send, [Self, common, 3]),
    spawn(priorities, send, [Self, urgent, 3]),
    spawn(priorities, send, [Self, other, 2]),
    erlang:display(taken(8)).

taken(0) -> [];
taken(N) -> urgent(N).

urgent(N) -> receive {urgent, K} -> [{u, K} | taken(N - 1)] after 0 -> common(N) end.

common(N) ->
    receive
        {urgent, K} -> [{u, K} | taken(N - 1)];
        {common, K} -> [{c, K} | taken(N - 1)]
    after 0 ->
        any(N)
    end.

any(N) -> receive {Kind, K} -> [{any, Kind, K} | taken(N - 1)] end.

send(_, _, 0) -> ok;
send(To, Kind, N) -> To ! {Kind, N}, send(To, Kind, N - 1).
