%% A worker is killed while it tells its results.
-module(kill_or_done).
-export([main/0, work/2]).

main() ->
    process_flag(trap_exit, true),
    Worker = spawn_link(kill_or_done, work, [self(), 3]),
    receive {step, 3} -> exit(Worker, kill) end,
    ending(Worker).

ending(Worker) ->
    receive
        {'EXIT', Worker, Why} -> erlang:display(Why);
        {step, N} -> erlang:display(N), ending(Worker)
    end.

work(_, 0) -> ok;
work(To, N) -> To ! {step, N}, work(To, N - 1).
