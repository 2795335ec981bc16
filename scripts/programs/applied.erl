%% refused R9 Unsupported apply_last
-module(applied).
-export([call/3, remote/1]).

call(M, F, A) -> apply(M, F, A).

remote(M) -> M:run(1, 2).
