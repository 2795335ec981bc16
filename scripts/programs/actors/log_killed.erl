%% A logger that others write to is killed, and another takes its place: what was written in between is lost.
-module(log_killed).
-export([main/0, keep/2, write/3, logging/1]).

main() ->
    Self = self(),
    Log = spawn(log_killed, keep, [Self, first]),
    Writers = [spawn_link(log_killed, write, [Self, Log, Name]) || Name <- [a, b]],
    receive {started, Logging} -> exit(Logging, kill) end,
    [receive {Writer, done} -> ok end || Writer <- Writers],
    Log ! {all, Self},
    receive {lines, Lines} -> erlang:display(Lines) end.

keep(Main, Why) ->
    process_flag(trap_exit, true),
    Logging = spawn_link(log_killed, logging, [[Why]]),
    if Why =:= first -> Main ! {started, Logging}; true -> ok end,
    pass(Main, Logging).

pass(Main, Logging) ->
    receive
        {'EXIT', Logging, Why} -> keep(Main, Why);
        Other -> Logging ! Other, pass(Main, Logging)
    end.

logging(Lines) ->
    receive
        {line, Line} -> logging([Line | Lines]);
        {all, To} -> To ! {lines, Lines}, logging(Lines)
    end.

write(Main, Log, Name) ->
    [Log ! {line, {Name, N}} || N <- [1, 2, 3]],
    receive after 1 -> Log ! {line, {Name, last}} end,
    Main ! {self(), done}.
