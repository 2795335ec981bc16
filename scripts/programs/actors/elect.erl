%% The greatest of four is elected by all telling all.
-module(elect).
-export([main/0, candidate/2]).

main() ->
    Pids = [spawn(elect, candidate, [self(), N]) || N <- [3, 1, 4, 2]],
    [Pid ! {all, Pids} || Pid <- Pids],
    results(4).

results(0) -> ok;
results(N) -> receive {Me, Winner, Order} -> erlang:display({Me, Winner, Order}), results(N - 1) end.

candidate(Main, N) ->
    receive {all, Pids} -> [Pid ! {vote, N} || Pid <- Pids] end,
    Votes = votes(4),
    Main ! {N, greatest(Votes, 0), Votes}.

votes(0) -> [];
votes(N) -> receive {vote, V} -> [V | votes(N - 1)] end.

greatest([], Max) -> Max;
greatest([V | Vs], Max) when V > Max -> greatest(Vs, V);
greatest([_ | Vs], Max) -> greatest(Vs, Max).
