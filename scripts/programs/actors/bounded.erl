%% A buffer of two places takes a message only while there is room; two put, two get, in any order.
-module(bounded).
-export([main/0, buffer/2, produce/3, consume/3]).

main() ->
    Self = self(),
    Buffer = spawn_link(bounded, buffer, [Self, []]),
    [spawn_link(bounded, produce, [Buffer, Name, 3]) || Name <- [a, b]],
    Consumers = [spawn_link(bounded, consume, [Self, Buffer, 3]) || _ <- [1, 2]],
    [receive {Consumer, Items} -> erlang:display(Items) end || Consumer <- Consumers],
    Buffer ! {stop, Self},
    receive {most, Most} -> erlang:display({most, Most}) end.

buffer(Main, Items) -> buffer(Main, Items, 0).

buffer(Main, Items, Most) ->
    receive
        {put, From, Item} when length(Items) < 2 ->
            From ! {self(), kept},
            buffer(Main, Items ++ [Item], max(Most, length(Items) + 1));
        {get, From} when Items =/= [] ->
            From ! {self(), hd(Items)},
            buffer(Main, tl(Items), Most);
        {stop, From} when Items =:= [] ->
            From ! {most, Most}
    end.

produce(_, _, 0) -> ok;
produce(Buffer, Name, N) ->
    Buffer ! {put, self(), {Name, N}},
    receive {Buffer, kept} -> produce(Buffer, Name, N - 1) end.

consume(Main, Buffer, N) -> Main ! {self(), got(Buffer, N)}.

got(_, 0) -> [];
got(Buffer, N) ->
    Buffer ! {get, self()},
    receive {Buffer, Item} -> [Item | got(Buffer, N - 1)] end.
