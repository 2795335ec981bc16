%% listed
-module(booleans).
-export([both/2, either/2, strict/2, kinds/1, compare/2]).

both(A, B) when A andalso B -> yes;
both(A, B) -> A andalso not B.

either(A, B) -> A orelse B.

strict(A, B) -> {A and B, A or B, A xor B, not A}.

kinds(X) ->
    [is_atom(X), is_integer(X), is_list(X), is_tuple(X), is_pid(X), is_boolean(X),
     is_number(X), is_float(X), is_binary(X), is_reference(X), is_port(X)].

compare(A, B) -> {A < B, A > B, A =< B, A >= B, A == B, A /= B, A =:= B, A =/= B}.
