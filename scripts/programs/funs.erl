%% refused R9 Unsupported make_fun3
-module(funs).
-export([map/2, adder/1, apply_all/2]).

map(F, L) -> [F(X) || X <- L].

adder(N) -> fun(X) -> X + N end.

apply_all(Fs, X) -> [F(X) || F <- Fs].
