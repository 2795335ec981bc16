%% A barrier that is used three times: who comes last in each round is open, but nobody is a round ahead.
-module(rounds).
-export([main/0, barrier/3, party/4]).

main() ->
    Self = self(),
    Barrier = spawn_link(rounds, barrier, [Self, 3, 3]),
    [spawn_link(rounds, party, [Self, Barrier, Name, 3]) || Name <- [a, b, c]],
    told(4).

told(0) -> ok;
told(N) -> receive {round, Round, Order} -> erlang:display({Round, Order}); over -> erlang:display(over) end, told(N - 1).

barrier(Main, _, 0) -> Main ! over;
barrier(Main, Size, Rounds) ->
    Came = came(Size, Rounds, []),
    Main ! {round, Rounds, [Name || {Name, _} <- Came]},
    [Pid ! {go, Rounds} || {_, Pid} <- Came],
    barrier(Main, Size, Rounds - 1).

came(0, _, Came) -> Came;
came(N, Round, Came) ->
    receive {here, Round, Name, Pid} -> came(N - 1, Round, [{Name, Pid} | Came]) end.

party(_, _, _, 0) -> ok;
party(Main, Barrier, Name, Round) ->
    Barrier ! {here, Round, Name, self()},
    receive {go, Round} -> ok end,
    party(Main, Barrier, Name, Round - 1).
