%% A cache forgets all when it was not asked for two milliseconds; each get is a hit or a miss.
-module(expiry).
-export([main/0, cache/2, user/4]).

main() ->
    process_flag(trap_exit, true),
    Cache = spawn_link(expiry, cache, [[], 0]),
    Self = self(),
    Users = [spawn_link(expiry, user, [Self, Cache, Name, Ms]) || {Name, Ms} <- [{a, [0, 1]}, {b, [2, 1]}]],
    [receive {User, Seen} -> erlang:display(Seen) end || User <- Users],
    exit(Cache, kill),
    receive {'EXIT', Cache, Why} -> erlang:display(Why) end.

cache(Pairs, Age) ->
    receive
        {From, {put, Key, Value}} -> From ! {self(), ok}, cache([{Key, Value, Age} | Pairs], Age);
        {From, {get, Key}} -> From ! {self(), find(Key, Pairs)}, cache(Pairs, Age)
    after 2 ->
        cache([], Age + 1)
    end.

find(_, []) -> miss;
find(Key, [{Key, Value, Age} | _]) -> {hit, Value, Age =:= 0};
find(Key, [_ | Pairs]) -> find(Key, Pairs).

user(Main, Cache, Name, Waits) ->
    call(Cache, {put, key, Name}),
    Main ! {self(), [Name | gets(Cache, Waits)]}.

gets(_, []) -> [];
gets(Cache, [Ms | Waits]) ->
    receive after Ms -> ok end,
    Found = call(Cache, {get, key}),
    [Found | gets(Cache, Waits)].

call(Cache, What) -> Cache ! {self(), What}, receive {Cache, Answer} -> Answer end.
