%% Two phases: all have to agree in time, else all go back.
-module(commit).
-export([main/0, member/2]).

main() ->
    Members = [spawn(commit, member, [Name, Ms]) || {Name, Ms} <- [{a, 0}, {b, 1}, {c, 2}]],
    [M ! {prepare, self()} || M <- Members],
    Decision = votes(3),
    [M ! {Decision, self()} || M <- Members],
    acks(3),
    erlang:display(Decision).

votes(0) -> commit;
votes(N) -> receive {yes, _} -> votes(N - 1) after 3 -> abort end.

acks(0) -> ok;
acks(N) -> receive {ack, Name} -> erlang:display(Name), acks(N - 1) end.

member(Name, Ms) ->
    receive {prepare, From} -> receive after Ms -> From ! {yes, Name} end end,
    receive {Decision, To} when Decision =:= commit; Decision =:= abort -> To ! {ack, Name} end.
