%% A process that only counts is killed by another.
-module(busy_killed).
-export([main/0, count/1]).

main() ->
    process_flag(trap_exit, true),
    Pid = spawn_link(busy_killed, count, [0]),
    exit(Pid, stop_it),
    receive {'EXIT', Pid, Why} -> erlang:display(Why) end.

count(N) -> count(N + 1).
