%% Exits that a process sends to itself: caught as messages, then the end.
-module(own_exits).
-export([main/0, end_with/2]).

main() ->
    process_flag(trap_exit, true),
    exit(self(), first),
    receive {'EXIT', Pid, first} -> erlang:display(Pid =:= self()) end,
    All = [spawn_link(own_exits, end_with, [Why, Trap]) || {Why, Trap} <- [{normal, false}, {bad, false}, {kill, true}, {kill, false}]],
    told(All).

told([]) -> ok;
told([Pid | Pids]) -> receive {'EXIT', Pid, Why} -> erlang:display(Why), told(Pids) end.

end_with(Why, Trap) -> process_flag(trap_exit, Trap), exit(self(), Why), receive never -> ok end.
