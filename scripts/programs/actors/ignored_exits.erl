%% Exits that are ignored, before exits are trapped and others become messages.
-module(ignored_exits).
-export([main/0, target/1]).

main() ->
    Target = spawn(ignored_exits, target, [self()]),
    exit(Target, normal),
    Target ! one,
    exit(Target, normal),
    Target ! two,
    exit(Target, normal),
    exit(Target, other),
    receive {Target, Seen} -> erlang:display(Seen) end.

target(Main) ->
    receive one -> ok end,
    process_flag(trap_exit, true),
    receive two -> ok end,
    Main ! {self(), exits(2, [])}.

exits(0, Seen) -> Seen;
exits(N, Seen) -> receive {'EXIT', _, Why} -> exits(N - 1, [Why | Seen]) after 3 -> [none | Seen] end.
