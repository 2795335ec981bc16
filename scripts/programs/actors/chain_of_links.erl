%% Each of a chain is linked to the next; one crashes, and all end but the one that traps exits.
-module(chain_of_links).
-export([main/0, link_on/2]).

main() ->
    process_flag(trap_exit, true),
    First = spawn_link(chain_of_links, link_on, [self(), 4]),
    receive {last, Last} -> Last ! crash end,
    receive {'EXIT', First, Why} -> erlang:display(Why) end.

link_on(Main, 0) -> Main ! {last, self()}, receive crash -> exit(crashed) end;
link_on(Main, N) -> spawn_link(chain_of_links, link_on, [Main, N - 1]), receive never -> ok end.
