%% Words are counted by mappers and reducers, three modules; a mapper that crashes is started anew. The order of parts is open.
-module(map_reduce).
-export([main/0]).

main() ->
    process_flag(trap_exit, true),
    Reducers = [spawn_link(reducer, run, [self(), Name]) || Name <- [even, odd]],
    Parts = [[1, 2, 3], [4, oops, 5], [2, 2, 7], []],
    mapped([{spawn_link(mapper, run, [Reducers, Part]), Part} || Part <- Parts], Reducers),
    [Reducer ! {finish, self()} || Reducer <- Reducers],
    [receive {Reducer, Name, Counts} -> erlang:display({Name, Counts}) end || Reducer <- Reducers].

mapped([], _) -> ok;
mapped(Mappers, Reducers) ->
    receive
        {'EXIT', Pid, normal} ->
            {_, Rest} = taken(Pid, Mappers),
            mapped(Rest, Reducers);
        {'EXIT', Pid, {Why, _}} ->
            {Part, Rest} = taken(Pid, Mappers),
            erlang:display({again, Why, Part}),
            mapped([{spawn_link(mapper, run, [Reducers, clean(Part)]), Part} | Rest], Reducers)
    end.

taken(Pid, [{Pid, Part} | Mappers]) -> {Part, Mappers};
taken(Pid, [One | Mappers]) -> {Part, Rest} = taken(Pid, Mappers), {Part, [One | Rest]}.

clean(Part) -> [N || N <- Part, is_integer(N)].
