%% A token goes round a ring three times; another overtakes it or not.
-module(ring).
-export([main/0, pass_on/1]).

main() ->
    First = lists_of(4, self()),
    First ! {token, 12, red},
    First ! {token, 8, blue},
    round(First, 2).

lists_of(0, Next) -> Next;
lists_of(N, Next) -> lists_of(N - 1, spawn(ring, pass_on, [Next])).

round(_, 0) -> ok;
round(First, Left) ->
    receive
        {token, 0, Colour} -> erlang:display(Colour), round(First, Left - 1);
        {token, N, Colour} -> First ! {token, N - 1, Colour}, round(First, Left)
    end.

pass_on(Next) ->
    receive
        {token, 0, Colour} -> Next ! {token, 0, Colour}, pass_on(Next);
        {token, N, Colour} -> Next ! {token, N - 1, Colour}, pass_on(Next)
    end.
