%% A semaphore of two: a holder that ends without a word gives its place back by its link. Who is in with whom is open.
-module(semaphore).
-export([main/0, places/2, user/3]).

main() ->
    Self = self(),
    Places = spawn(semaphore, places, [2, []]),
    Users = [spawn(semaphore, user, [Self, Places, How]) || How <- [good, crash, good, leave, crash, good]],
    Last = last(Users),
    exit(Last, kill),
    told(4),
    Places ! {free, Self},
    receive {free, N} -> erlang:display({free, N}) end.

last([Pid]) -> Pid;
last([_ | Pids]) -> last(Pids).

told(0) -> ok;
told(N) -> receive {in, How} -> erlang:display(How), told(N - 1) after 10 -> erlang:display(few) end.

places(Free, Holders) ->
    process_flag(trap_exit, true),
    receive
        {enter, Pid} when Free > 0 -> link(Pid), Pid ! {self(), enter}, places(Free - 1, [Pid | Holders]);
        {leave, Pid} -> unlink(Pid), places(Free + 1, without(Pid, Holders));
        {'EXIT', Pid, _} -> places(Free + 1, without(Pid, Holders));
        {free, To} -> To ! {free, {Free, length(Holders)}}, places(Free, Holders)
    end.

without(_, []) -> [];
without(Pid, [Pid | Pids]) -> Pids;
without(Pid, [Other | Pids]) -> [Other | without(Pid, Pids)].

user(Main, Places, How) ->
    Places ! {enter, self()},
    receive {Places, enter} -> Main ! {in, How} end,
    case How of
        good -> Places ! {leave, self()};
        crash -> exit(crashed);
        leave -> receive after 2 -> ok end
    end.
