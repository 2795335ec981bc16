%% listed
-module(trees).
-export([insert/3, find/2, to_list/1, depth/1]).

insert(K, V, nil) -> {node, K, V, nil, nil};
insert(K, V, {node, K, _, L, R}) -> {node, K, V, L, R};
insert(K, V, {node, K1, V1, L, R}) when K < K1 -> {node, K1, V1, insert(K, V, L), R};
insert(K, V, {node, K1, V1, L, R}) -> {node, K1, V1, L, insert(K, V, R)}.

find(_, nil) -> none;
find(K, {node, K, V, _, _}) -> {some, V};
find(K, {node, K1, _, L, _}) when K < K1 -> find(K, L);
find(K, {node, _, _, _, R}) -> find(K, R).

to_list(T) -> to_list(T, []).

to_list(nil, Acc) -> Acc;
to_list({node, K, V, L, R}, Acc) -> to_list(L, [{K, V} | to_list(R, Acc)]).

depth(nil) -> 0;
depth({node, _, _, L, R}) -> 1 + max(depth(L), depth(R)).
