%% One links, unlinks and links again to a process that crashes when it is told to: it is told of the crash, or not, or of noproc.
-module(unlink_twice).
-export([main/0, hold/2, crash/1]).

main() ->
    Self = self(),
    [tried(Self, Name) || Name <- [one, two, three, four]].

tried(Self, Name) ->
    Holder = spawn(unlink_twice, hold, [Self, Name]),
    receive {Holder, Seen} -> erlang:display({Name, Seen}) end.

hold(Main, Name) ->
    process_flag(trap_exit, true),
    Pid = spawn_link(unlink_twice, crash, [Name]),
    step(Name, Pid),
    Main ! {self(), seen([])}.

step(one, Pid) -> Pid ! go, unlink(Pid), link(Pid);
step(two, Pid) -> unlink(Pid), Pid ! go, link(Pid), unlink(Pid);
step(three, Pid) -> exit(Pid, normal), unlink(Pid), link(Pid), Pid ! go;
step(four, Pid) -> unlink(Pid), exit(Pid, ended), link(Pid), link(Pid), unlink(self()).

seen(Seen) -> receive {'EXIT', _, Why} -> seen([Why | Seen]) after 3 -> Seen end.

crash(Name) -> receive go -> exit({crashed, Name}) end.
