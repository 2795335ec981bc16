%% Two take two locks in opposite order: both end, or both wait for ever.
-module(deadlock).
-export([main/0, lock/0, taker/4]).

main() ->
    A = spawn(deadlock, lock, []),
    B = spawn(deadlock, lock, []),
    Self = self(),
    spawn(deadlock, taker, [Self, one, A, B]),
    spawn(deadlock, taker, [Self, two, B, A]),
    [receive {done, Name} -> erlang:display(Name) end || _ <- [1, 2]].

lock() -> receive {take, From} -> From ! {taken, self()}, receive {free, From} -> lock() end end.

taker(Main, Name, First, Second) ->
    take(First),
    take(Second),
    Second ! {free, self()},
    First ! {free, self()},
    Main ! {done, Name}.

take(Lock) -> Lock ! {take, self()}, receive {taken, Lock} -> ok end.
