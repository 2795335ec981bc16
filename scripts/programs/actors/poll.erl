%% A process looks for messages without waiting, and counts how often there was none.
-module(poll).
-export([main/0, work/2]).

main() ->
    Self = self(),
    spawn(poll, work, [Self, 3]),
    spawn(poll, work, [Self, 5]),
    erlang:display(sum(2, 0, 0)).

sum(0, _, Sum) -> Sum;
sum(N, Idle, Sum) ->
    receive
        {done, X} -> erlang:display({after_idle, Idle > 0, X}), sum(N - 1, Idle, Sum + X)
    after 0 ->
        sum(N, Idle + 1, Sum)
    end.

work(To, N) -> To ! {done, square(N, N)}.

square(_, 0) -> 0;
square(N, K) -> N + square(N, K - 1).
