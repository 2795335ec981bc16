%% A supervisor starts a worker anew when it crashes, three times at most.
-module(restarts).
-export([main/0, supervise/2, worker/0]).

main() ->
    Supervisor = spawn(restarts, supervise, [self(), 3]),
    feed(Supervisor, [1, 0, 2, 0, 0, 3]),
    receive {Supervisor, Why} -> erlang:display(Why) end.

feed(_, []) -> ok;
feed(Supervisor, [N | Ns]) -> Supervisor ! {job, N}, feed(Supervisor, Ns).

supervise(To, Left) ->
    process_flag(trap_exit, true),
    serve(To, spawn_link(restarts, worker, []), Left).

serve(To, _, 0) -> To ! {self(), gave_up};
serve(To, Worker, Left) ->
    receive
        {job, N} -> Worker ! {divide, N}, serve(To, Worker, Left);
        {'EXIT', Worker, Why} -> erlang:display(Why), serve(To, spawn_link(restarts, worker, []), Left - 1)
    end.

worker() -> receive {divide, N} -> erlang:display(12 div N), worker() end.
