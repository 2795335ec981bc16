%% listed
-module(queues).
-export([new/0, put/2, take/1, selective/1]).

new() -> {[], []}.

put(X, {F, B}) -> {F, [X | B]}.

take({[], []}) -> empty;
take({[X | F], B}) -> {X, {F, B}};
take({[], B}) -> take({reverse(B, []), []}).

reverse([], Acc) -> Acc;
reverse([X | Xs], Acc) -> reverse(Xs, [X | Acc]).

selective(Tag) ->
    receive
        {Tag, first} -> receive {Tag, second} -> both after 5 -> first end;
        {Tag, X} when is_integer(X), X > 0 -> {positive, X};
        Other when is_atom(Other) -> Other
    end.
