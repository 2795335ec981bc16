%% Each of three tells the others, who tell on what they heard first.
-module(broadcast).
-export([main/0, peer/2]).

main() ->
    Self = self(),
    Peers = [spawn(broadcast, peer, [Self, Name]) || Name <- [a, b, c]],
    [Peer ! {peers, [P || P <- Peers, P =/= Peer]} || Peer <- Peers],
    [receive {heard, Name, Order} -> erlang:display({Name, Order}) end || _ <- Peers].

peer(Main, Name) ->
    receive {peers, Peers} -> ok end,
    [Peer ! {says, Name} || Peer <- Peers],
    receive {says, First} -> [Peer ! {tells, Name, First} || Peer <- Peers] end,
    Main ! {heard, Name, [First | heard(3)]}.

heard(0) -> [];
heard(N) ->
    receive
        {says, Other} -> [Other | heard(N - 1)];
        {tells, By, What} -> [{By, What} | heard(N - 1)]
    end.
