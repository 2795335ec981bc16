%% Each asks those with greater numbers whether they live, and leads if none answers in time: there may be two leaders.
-module(bully).
-export([main/0, candidate/2]).

main() ->
    Peers = [{N, spawn(bully, candidate, [self(), N])} || N <- [2, 1, 4, 3]],
    [Pid ! {peers, Peers} || {_, Pid} <- Peers],
    {_, Greatest} = hd(tl(tl(Peers))),
    exit(Greatest, stopped),
    results().

results() ->
    receive {N, Leader} -> erlang:display({N, Leader}), results() after 15 -> erlang:display(over) end.

candidate(Main, N) ->
    receive
        {peers, Peers} ->
            [Pid ! {election, self()} || {M, Pid} <- Peers, M > N],
            elect(Main, N, Peers)
    end.

elect(Main, N, Peers) ->
    receive
        {election, From} -> From ! {alive, N}, elect(Main, N, Peers);
        {alive, _} -> follow(Main, N);
        {leader, M} -> Main ! {N, M}
    after 1 ->
        [Pid ! {leader, N} || {_, Pid} <- Peers],
        Main ! {N, N}
    end.

follow(Main, N) ->
    receive
        {election, From} -> From ! {alive, N}, follow(Main, N);
        {leader, M} -> Main ! {N, M}
    after 4 -> Main ! {N, nobody}
    end.
