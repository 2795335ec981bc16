%% A tree of processes sums its leaves; the order of the parts is displayed.
-module(tree).
-export([main/0, node/2]).

main() ->
    spawn(tree, node, [self(), 3]),
    receive {sum, N, Shape} -> erlang:display({N, Shape}) end.

node(Parent, 0) -> Parent ! {sum, 1, leaf};
node(Parent, Depth) ->
    Self = self(),
    Left = spawn(tree, node, [Self, Depth - 1]),
    spawn(tree, node, [Self, Depth - 2 + (Depth rem 2)]),
    receive {sum, M, A} -> receive {sum, N, B} -> Parent ! {sum, M + N, {A, B, Left =/= Self}} end end.
