%% Four meet at a barrier, twice, and the order in which they came is displayed.
-module(barrier).
-export([main/0, walker/3]).

main() ->
    Self = self(),
    Pids = [spawn(barrier, walker, [Self, Name, 2]) || Name <- [a, b, c, d]],
    meet(Pids),
    meet(Pids).

meet(Pids) ->
    [receive {here, Name} -> erlang:display(Name) end || _ <- Pids],
    [Pid ! go || Pid <- Pids].

walker(_, _, 0) -> ok;
walker(Main, Name, N) -> Main ! {here, Name}, receive go -> walker(Main, Name, N - 1) end.
