%% A supervisor ends the others when one of three crashes, and starts all anew, twice at most: which crashes first is open.
-module(one_for_all).
-export([main/0, supervise/2, child/2]).

main() ->
    Supervisor = spawn(one_for_all, supervise, [self(), 2]),
    receive {Supervisor, Why} -> erlang:display(Why) end.

supervise(Main, Left) ->
    process_flag(trap_exit, true),
    rounds(Main, Left).

rounds(Main, Left) ->
    Children = [spawn_link(one_for_all, child, [Name, Ms]) || {Name, Ms} <- [{a, 2}, {b, 2}, {careful, 40}]],
    receive {'EXIT', Pid, Why} -> erlang:display({Left, Why}), ended(Children, Pid) end,
    case Left of
        0 -> Main ! {self(), gave_up};
        _ -> rounds(Main, Left - 1)
    end.

ended([], _) -> ok;
ended([Pid | Pids], Pid) -> ended(Pids, Pid);
ended([Child | Pids], Pid) ->
    exit(Child, shutdown),
    receive {'EXIT', Child, Why} -> erlang:display(Why) end,
    ended(Pids, Pid).

child(careful, Ms) ->
    process_flag(trap_exit, true),
    receive {'EXIT', _, Why} -> exit({closed, Why}) after Ms -> exit(late) end;
child(Name, Ms) ->
    receive after Ms -> exit({crashed, Name}) end.
