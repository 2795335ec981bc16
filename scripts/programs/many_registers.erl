%% listed
-module(many_registers).
-export([wide/9, keep/8]).

wide(A, B, C, D, E, F, G, H, I) ->
    X = other({A, B, C}), Y = other({D, E, F}), Z = other({G, H, I}),
    {A, B, C, D, E, F, G, H, I, X, Y, Z}.

keep(A, B, C, D, E, F, G, H) ->
    P = other(A), Q = other(B), R = other(C), S = other(D),
    T = other(E), U = other(F), V = other(G), W = other(H),
    [A, B, C, D, E, F, G, H, P, Q, R, S, T, U, V, W].

other(X) -> case X of {A, _, _} -> A; _ -> X end.
