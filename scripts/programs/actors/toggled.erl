%% Exits arrive while a process traps them now and then.
-module(toggled).
-export([main/0, toggle/2, shoot/2]).

main() ->
    process_flag(trap_exit, true),
    Target = spawn_link(toggled, toggle, [self(), 3]),
    spawn(toggled, shoot, [Target, normal]),
    spawn(toggled, shoot, [Target, bang]),
    receive
        {Target, Seen} -> erlang:display({seen, Seen});
        {'EXIT', Target, Why} -> erlang:display({ended, Why})
    end.

toggle(Main, N) -> toggle(Main, N, []).

toggle(Main, 0, Seen) -> Main ! {self(), Seen};
toggle(Main, N, Seen) ->
    process_flag(trap_exit, true),
    More = receive {'EXIT', Main, _} -> Seen; {'EXIT', _, Why} -> [Why | Seen] after 1 -> Seen end,
    process_flag(trap_exit, false),
    toggle(Main, N - 1, More).

shoot(Target, Why) -> exit(Target, Why).
