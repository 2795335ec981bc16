%% A store of keys and values, for store_client.
-module(store).
-export([new/0, put/3, get/2, stop/1, loop/1]).

new() -> spawn_link(store, loop, [[]]).

put(Store, Key, Value) -> call(Store, {put, Key, Value}).

get(Store, Key) -> call(Store, {get, Key}).

stop(Store) -> call(Store, stop).

call(Store, What) ->
    Store ! {self(), What},
    receive {Store, Answer} -> Answer end.

loop(Pairs) ->
    receive
        {From, {put, Key, Value}} -> From ! {self(), ok}, loop([{Key, Value} | Pairs]);
        {From, {get, Key}} -> From ! {self(), found(Key, Pairs)}, loop(Pairs);
        {From, stop} -> From ! {self(), bye}
    end.

found(_, []) -> none;
found(Key, [{Key, Value} | _]) -> Value;
found(Key, [_ | Pairs]) -> found(Key, Pairs).
