%% listed
-module(ifs).
-export([sign/1, grade/1, no_clause/1]).

sign(X) -> if X > 0 -> 1; X < 0 -> -1; true -> 0 end.

grade(X) ->
    case X of
        N when is_integer(N), N >= 90 -> a;
        N when is_integer(N), N >= 50 -> b;
        N when is_integer(N) -> c;
        {N, _} -> grade(N);
        [N | _] -> grade(N)
    end.

no_clause(X) -> if X =:= 1 -> one end.
