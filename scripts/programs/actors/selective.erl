%% Messages are taken by their tag, in another order than they come.
-module(selective).
-export([main/0, send/3]).

main() ->
    Self = self(),
    [spawn(selective, send, [Self, Tag, 2]) || Tag <- [low, high, middle]],
    take([high, high, middle, low, middle, low]).

take([]) -> ok;
take([Tag | Tags]) -> receive {Tag, N} -> erlang:display({Tag, N}), take(Tags) end.

send(_, _, 0) -> ok;
send(To, Tag, N) -> To ! {Tag, N}, send(To, Tag, N - 1).
