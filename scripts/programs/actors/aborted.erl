%% Two phases with members that may refuse, crash or be late: the decision and who is undone depend on what comes first.
-module(aborted).
-export([main/0, member/3]).

main() ->
    process_flag(trap_exit, true),
    transact([{a, yes, 0}, {b, yes, 1}, {c, crash, 1}]),
    transact([{d, yes, 0}, {e, no, 0}, {f, yes, 2}]),
    transact([{g, yes, 0}, {h, yes, 0}, {i, yes, 1}]).

transact(All) ->
    Members = [spawn_link(aborted, member, [Name, How, Ms]) || {Name, How, Ms} <- All],
    [Member ! {prepare, self()} || Member <- Members],
    Decision = votes(Members),
    [Member ! {Decision, self()} || Member <- Members],
    erlang:display({Decision, [ending(Member) || Member <- Members]}).

votes([]) -> commit;
votes([Member | Members]) ->
    receive
        {Member, yes} -> votes(Members);
        {_, no} -> abort;
        {'EXIT', _, crashed} -> abort
    after 3 -> abort
    end.

ending(Member) ->
    receive {'EXIT', Member, Why} -> Why after 5 -> unlink(Member), none end.

member(Name, How, Ms) ->
    receive {prepare, From} -> receive after Ms -> vote(From, How) end end,
    receive
        {commit, _} -> exit({done, Name});
        {abort, _} -> exit({undone, Name})
    end.

vote(_, crash) -> exit(crashed);
vote(From, Vote) -> From ! {self(), Vote}.
