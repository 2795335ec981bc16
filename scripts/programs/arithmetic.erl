%% listed
-module(arithmetic).
-export([all/2, bits/2, safe/2, guards/1]).

all(A, B) -> [A + B, A - B, A * B, A div B, A rem B, -A, abs(B), min(A, B), max(A, B)].

bits(A, B) -> {A band B, A bor B, A bxor B, A bsl B, A bsr B, bnot A}.

safe(A, B) -> case catch A div B of {'EXIT', {badarith, _}} -> zero; Q -> Q end.

guards(X) when abs(X) > 10, X rem 2 == 0 -> big_even;
guards(X) when X + 1 < 0; X bsl 2 > 100 -> odd_one;
guards(_) -> small.
