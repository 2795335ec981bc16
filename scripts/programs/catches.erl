%% listed
-module(catches).
-export([one/1, two/1, rethrow/1, classes/1]).

one(F) -> catch apply_it(F).

two(X) -> A = (catch one(X)), B = (catch throw({A, X})), {A, B}.

rethrow(X) ->
    try apply_it(X)
    catch
        throw:T when T > 3 -> throw({again, T});
        Class:Reason -> erlang:error({Class, Reason})
    end.

classes(X) ->
    try apply_it(X) catch C:R -> {C, R} end.

apply_it(0) -> exit(zero);
apply_it(X) when X < 10 -> throw(X);
apply_it(X) -> element(1, X).
