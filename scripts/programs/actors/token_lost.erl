%% A token goes round a ring; two kill one of its members with the same reason, before, while or after it holds the token.
-module(token_lost).
-export([main/0, member/2, kill/1]).

main() ->
    Self = self(),
    Members = [spawn(token_lost, member, [Self, N]) || N <- [1, 2, 3, 4]],
    [First, _, Third, _] = Members,
    joined(Members ++ [First]),
    spawn(token_lost, kill, [Third]),
    First ! {token, 13},
    spawn(token_lost, kill, [Third]),
    watched([]).

joined([_]) -> ok;
joined([Member, Next | Members]) -> Member ! {next, Next}, joined([Next | Members]).

watched(Seen) ->
    receive
        {home, N} -> erlang:display({home, N, Seen});
        {passed, N, Left} -> watched([{N, Left} | Seen])
    after 10 ->
        erlang:display({lost, Seen})
    end.

member(Main, N) -> receive {next, Next} -> pass(Main, N, Next) end.

pass(Main, N, Next) ->
    receive
        {token, 0} -> Main ! {home, N};
        {token, Left} ->
            Next ! {token, Left - 1},
            Main ! {passed, N, Left},
            pass(Main, N, Next)
    end.

kill(Pid) -> exit(Pid, kill).
