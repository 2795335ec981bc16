%% Natives that raise, caught, between others that do not.
-module(raising).
-export([main/0, echo/1]).

main() ->
    Self = self(),
    Pid = spawn(raising, echo, [Self]),
    erlang:display(class(fun_of(1, Pid))),
    erlang:display(class(fun_of(2, Pid))),
    erlang:display(class(fun_of(3, Pid))),
    erlang:display(class(fun_of(4, Pid))),
    erlang:display(class(fun_of(5, Pid))),
    Pid ! hello,
    receive hello -> ok end.

class(X) -> X.

fun_of(1, _) -> try link(no_pid) catch C:R -> {C, R} end;
fun_of(2, Pid) -> try exit({Pid}, kill) catch C:R -> {C, R} end;
fun_of(3, Pid) -> try spawn(raising, echo, Pid) catch C:R -> {C, R} end;
fun_of(4, Pid) -> try 1 ! Pid catch C:R -> {C, R} end;
fun_of(5, Pid) -> try unlink([Pid]) catch C:R -> {C, R} end.

echo(To) -> receive X -> To ! X end.
