%% Three eat with three forks: who waits too long for the second puts the first back.
-module(dining).
-export([main/0, fork/0, eat/4]).

main() ->
    [A, B, C] = [spawn(dining, fork, []) || _ <- [1, 2, 3]],
    Self = self(),
    [spawn(dining, eat, [Self, Name, Left, Right]) || {Name, Left, Right} <- [{1, A, B}, {2, B, C}, {3, C, A}]],
    results(3).

results(0) -> ok;
results(N) -> receive Result -> erlang:display(Result), results(N - 1) end.

fork() ->
    receive
        {take, From} -> From ! {taken, self()}, receive {put, From} -> fork() end
    end.

eat(Table, Name, Left, Right) ->
    Left ! {take, self()},
    receive {taken, Left} -> ok end,
    Right ! {take, self()},
    receive
        {taken, Right} -> Right ! {put, self()}, Left ! {put, self()}, Table ! {Name, ate}
    after 2 ->
        Left ! {put, self()}, Table ! {Name, hungry}
    end.
