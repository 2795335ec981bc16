%% A monitor of its own: a process that traps exits links to others for those who ask, who may have ended before.
-module(watcher).
-export([main/0, watch/1, short/1]).

main() ->
    Watcher = spawn(watcher, watch, [[]]),
    Pids = [spawn(watcher, short, [How]) || How <- [normal, {wait, 1}, {wait, 3}, crash, {exit, bye}]],
    [Watcher ! {monitor, self(), {self(), N}, Pid} || {N, Pid} <- numbered(1, Pids)],
    Watcher ! {demonitor, {self(), 3}},
    downs(4),
    receive {down, Ref, Why} -> erlang:display({late, element(2, Ref), Why}) after 6 -> erlang:display(none) end,
    exit(Watcher, stop),
    receive {stopped, Left} -> erlang:display({left, length(Left)}) after 5 -> erlang:display(no_answer) end.

numbered(_, []) -> [];
numbered(N, [Pid | Pids]) -> [{N, Pid} | numbered(N + 1, Pids)].

downs(0) -> ok;
downs(N) -> receive {down, {_, M}, Why} -> erlang:display({M, Why}), downs(N - 1) end.

watch(Watched) ->
    process_flag(trap_exit, true),
    receive
        {monitor, To, Ref, Pid} -> link(Pid), watch([{Ref, To, Pid} | Watched]);
        {demonitor, Ref} -> watch(dropped(Ref, Watched));
        {'EXIT', Pid, stop} -> Pid ! {stopped, Watched};
        {'EXIT', Pid, Why} -> watch(told(Pid, Why, Watched))
    end.

dropped(_, []) -> [];
dropped(Ref, [{Ref, _, Pid} | Watched]) -> unlink(Pid), Watched;
dropped(Ref, [One | Watched]) -> [One | dropped(Ref, Watched)].

told(_, _, []) -> [];
told(Pid, Why, [{Ref, To, Pid} | Watched]) -> To ! {down, Ref, Why}, told(Pid, Why, Watched);
told(Pid, Why, [One | Watched]) -> [One | told(Pid, Why, Watched)].

short(normal) -> ok;
short({wait, Ms}) -> receive after Ms -> ok end;
short(crash) -> hd(list([]));
short({exit, Why}) -> exit(Why).

list(X) -> X.
