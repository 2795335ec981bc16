%% Two clients write a key of a store, which is another module, and read it.
-module(store_client).
-export([main/0, client/3]).

main() ->
    Store = store:new(),
    Self = self(),
    [spawn_link(store_client, client, [Self, Store, Name]) || Name <- [a, b]],
    [receive {Name, Seen} -> erlang:display({Name, Seen}) end || Name <- [a, b]],
    erlang:display(store:stop(Store)).

client(Main, Store, Name) ->
    store:put(Store, key, Name),
    Main ! {Name, store:get(Store, key)}.
