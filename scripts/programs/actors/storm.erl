%% Four send all others many pings at once and answer each; the order of pings and pongs is open, their number is not.
-module(storm).
-export([main/0, pinger/3]).

main() ->
    Self = self(),
    Pids = [spawn_link(storm, pinger, [Self, Name, 4]) || Name <- [a, b, c, d]],
    [Pid ! {others, others(Pid, Pids)} || Pid <- Pids],
    [receive {Pid, Pings, Pongs, Order} -> erlang:display({Pings, Pongs, Order}) end || Pid <- Pids].

others(Pid, [Pid | Pids]) -> Pids;
others(Pid, [Other | Pids]) -> [Other | others(Pid, Pids)].

pinger(Main, Name, Times) ->
    receive {others, Others} -> ping(Others, Times), count(Main, Name, 3 * Times, 3 * Times, 0, 0, []) end.

ping(_, 0) -> ok;
ping(Others, N) -> [Pid ! {ping, self(), N} || Pid <- Others], ping(Others, N - 1).

count(Main, _, 0, 0, Pings, Pongs, Order) -> Main ! {self(), Pings, Pongs, Order};
count(Main, Name, I, O, Pings, Pongs, Order) ->
    receive
        {ping, From, N} -> From ! {pong, Name, N}, count(Main, Name, I - 1, O, Pings + 1, Pongs, Order);
        {pong, Who, 1} -> count(Main, Name, I, O - 1, Pings, Pongs + 1, [Who | Order]);
        {pong, _, _} -> count(Main, Name, I, O - 1, Pings, Pongs + 1, Order)
    end.
