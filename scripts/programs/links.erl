%% listed
-module(links).
-export([watch/1, child/1, chain/1]).

watch(N) ->
    process_flag(trap_exit, true),
    Pid = spawn_link(links, child, [N]),
    receive {'EXIT', Pid, Reason} -> Reason end.

child(0) -> ok;
child(N) when N > 10 -> exit({too, many, N});
child(N) -> unlink(self()), link(self()), child(N - 1).

chain(0) -> receive stop -> ok end;
chain(N) -> Pid = spawn_link(links, chain, [N - 1]), exit(Pid, kill), chain(0).
