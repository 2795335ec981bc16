%% listed
-module(comprehensions).
-export([evens/1, pairs/2, nested/1]).

evens(L) -> [X || X <- L, X rem 2 =:= 0].

pairs(Xs, Ys) -> [{X, Y} || X <- Xs, Y <- Ys, X =/= Y].

nested(Ls) -> [[{X, a} || {X, _} <- L, is_integer(X)] || L <- Ls].
