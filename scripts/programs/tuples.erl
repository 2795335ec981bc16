%% listed
-module(tuples).
-export([swap/1, nth/2, replace/3, through/1, tagged/1]).

swap({A, B}) -> {B, A};
swap({A, B, C}) -> {C, B, A}.

nth(N, T) when is_tuple(T), tuple_size(T) >= N -> element(N, T);
nth(_, _) -> none.

replace(N, T, X) -> setelement(N, T, X).

through(T) -> list_to_tuple(tuple_to_list(T) ++ [last]).

tagged({point, X, Y}) -> X + Y;
tagged({circle, R}) -> R * R;
tagged({point, X, Y, Z}) -> X + Y + Z.
