%% link/1 to a process that may have ended: a real node raises noproc then, which bxemu does not.
-module(link_to_ended).
-export([main/0, short/0]).

main() ->
    Pid = spawn(link_to_ended, short, []),
    receive after 1 -> ok end,
    Result = try link(Pid) catch Class:Why -> {Class, Why} end,
    erlang:display(Result).

short() -> ok.
