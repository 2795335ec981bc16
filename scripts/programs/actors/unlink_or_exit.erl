%% An unlink and the other's exit cross.
-module(unlink_or_exit).
-export([main/0, guard/1, fall/0]).

main() ->
    Guard = spawn(unlink_or_exit, guard, [self()]),
    receive {Guard, Told} -> erlang:display(Told) end.

guard(Main) ->
    process_flag(trap_exit, true),
    Pid = spawn_link(unlink_or_exit, fall, []),
    Pid ! go,
    unlink(Pid),
    receive
        {'EXIT', Pid, Why} -> Main ! {self(), {told, Why}}
    after 5 ->
        Main ! {self(), not_told}
    end.

fall() -> receive go -> exit(fell) end.
