%% listed
-module(mutual).
-export([even/1, ackermann/2, hanoi/1, fact/1]).

even(0) -> true;
even(N) -> odd(N - 1).

odd(0) -> false;
odd(N) -> even(N - 1).

ackermann(0, N) -> N + 1;
ackermann(M, 0) -> ackermann(M - 1, 1);
ackermann(M, N) -> ackermann(M - 1, ackermann(M, N - 1)).

hanoi(N) -> hanoi(N, a, b, c, []).

hanoi(0, _, _, _, Moves) -> Moves;
hanoi(N, A, B, C, Moves) -> hanoi(N - 1, C, B, A, [{A, B} | hanoi(N - 1, A, C, B, Moves)]).

fact(0) -> 1;
fact(N) -> N * fact(N - 1).
