%% A mapper, for map_reduce: sends each number to the reducer of its kind.
-module(mapper).
-export([run/2]).

run(_, []) -> ok;
run([Even, Odd], [N | Ns]) ->
    case N rem 2 of
        0 -> Even ! {self(), one, N};
        1 -> Odd ! {self(), one, N}
    end,
    run([Even, Odd], Ns).
