%% A link comes before the other's end, or after it.
-module(late_link).
-export([main/0, short/1]).

main() ->
    process_flag(trap_exit, true),
    watch(3).

watch(0) -> ok;
watch(N) ->
    Pid = spawn(late_link, short, [N]),
    link(Pid),
    receive {'EXIT', Pid, Why} -> erlang:display({N, Why}) end,
    watch(N - 1).

short(N) -> exit({short, N}).
