%% refused R9 Unsupported is_map
-module(maps_used).
-export([get_it/2, put_it/3]).

get_it(K, #{} = M) -> case M of #{K := V} -> V; _ -> none end.

put_it(K, V, M) -> M#{K => V}.
