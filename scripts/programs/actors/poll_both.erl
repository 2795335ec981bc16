%% Two look for the other's messages without waiting, and send how often they saw none; both also count what they sent too early.
-module(poll_both).
-export([main/0, player/2]).

main() ->
    Self = self(),
    Left = spawn(poll_both, player, [Self, left]),
    Right = spawn(poll_both, player, [Self, right]),
    Left ! {other, Right},
    Right ! {other, Left},
    [receive {Pid, Seen} -> erlang:display(Seen) end || Pid <- [Left, Right]].

player(Main, Name) ->
    receive {other, Other} -> ok end,
    play(Main, Name, Other, 6, []).

play(Main, Name, Other, 0, Seen) ->
    Other ! bye,
    Main ! {self(), {Name, Seen, last(0)}};
play(Main, Name, Other, N, Seen) ->
    Other ! {hit, N},
    receive
        {hit, M} -> play(Main, Name, Other, N - 1, [M | Seen])
    after 0 ->
        play(Main, Name, Other, N - 1, [none | Seen])
    end.

last(Count) -> receive {hit, _} -> last(Count + 1); bye -> Count after 3 -> {late, Count} end.
