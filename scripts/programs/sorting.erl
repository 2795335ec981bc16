%% listed
-module(sorting).
-export([merge_sort/1, quick/1, insert/2]).

merge_sort([]) -> [];
merge_sort([X]) -> [X];
merge_sort(L) ->
    {A, B} = split(L, [], []),
    merge(merge_sort(A), merge_sort(B)).

split([], A, B) -> {A, B};
split([X | Xs], A, B) -> split(Xs, [X | B], A).

merge([], B) -> B;
merge(A, []) -> A;
merge([X | Xs], [Y | _] = Ys) when X =< Y -> [X | merge(Xs, Ys)];
merge(Xs, [Y | Ys]) -> [Y | merge(Xs, Ys)].

quick([]) -> [];
quick([P | Xs]) -> quick([X || X <- Xs, X < P]) ++ [P | quick([X || X <- Xs, X >= P])].

insert(X, [Y | Ys]) when X > Y -> [Y | insert(X, Ys)];
insert(X, Ys) -> [X | Ys].
