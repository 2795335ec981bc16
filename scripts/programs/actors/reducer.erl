%% A reducer, for map_reduce: counts how often it saw each number, in the order of their first coming.
-module(reducer).
-export([run/2]).

run(Main, Name) -> link(Main), count(Name, []).

count(Name, Counts) ->
    receive
        {_, one, N} -> count(Name, added(N, Counts));
        {finish, To} -> To ! {self(), Name, Counts}
    end.

added(N, []) -> [{N, 1}];
added(N, [{N, Count} | Counts]) -> [{N, Count + 1} | Counts];
added(N, [Other | Counts]) -> [Other | added(N, Counts)].
