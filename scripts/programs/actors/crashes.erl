%% Processes that crash in many ways, watched by one that traps exits.
-module(crashes).
-export([main/0, crash/1]).

main() ->
    process_flag(trap_exit, true),
    Pids = [spawn_link(crashes, crash, [How]) || How <- [badarith, badmatch, case_clause, function_clause, if_clause, throw, exit, error, badarg, undef]],
    told(Pids).

told([]) -> ok;
told(Pids) ->
    receive {'EXIT', Pid, Why} -> erlang:display(Why), told(without(Pid, Pids)) end.

without(Pid, [Pid | Pids]) -> Pids;
without(Pid, [Other | Pids]) -> [Other | without(Pid, Pids)].

crash(badarith) -> erlang:display(1 div zero(0));
crash(badmatch) -> two = zero(one);
crash(case_clause) -> case zero(3) of 4 -> ok end;
crash(if_clause) -> if_of(5);
crash(throw) -> throw(ball);
crash(exit) -> exit(gone);
crash(error) -> erlang:error(fault);
crash(badarg) -> hd(zero([]));
crash(undef) -> crashes:nowhere(1).

zero(X) -> X.

if_of(X) -> if X > 5 -> more end.
