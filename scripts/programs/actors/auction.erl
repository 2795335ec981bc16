%% An auction in a hall with bidders, three modules: a bid may come too late, and a bidder may leave before he has won.
-module(auction).
-export([main/0]).

main() ->
    process_flag(trap_exit, true),
    Hall = hall:open(self(), 10),
    Bidders = [spawn_link(bidder, run, [Hall, Name, Most, Ms]) || {Name, Most, Ms} <- [{a, 14, 0}, {b, 16, 0}, {c, 30, 2}]],
    receive {Hall, Winner, Price} -> erlang:display({Winner, Price}) end,
    hall:close(Hall, Bidders),
    [receive {'EXIT', Bidder, Why} -> erlang:display(Why) end || Bidder <- Bidders].
