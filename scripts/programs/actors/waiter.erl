%% Four dine with a waiter who gives both forks at once; whoever has to wait is kept in line. The order of the meals is open.
-module(waiter).
-export([main/0, serve/2, dine/4]).

main() ->
    Self = self(),
    Waiter = spawn(waiter, serve, [[1, 2, 3, 4], []]),
    [spawn(waiter, dine, [Self, Waiter, N, 2]) || N <- [1, 2, 3, 4]],
    meals(8),
    exit(Waiter, closed).

meals(0) -> ok;
meals(N) -> receive {ate, Name} -> erlang:display(Name), meals(N - 1) end.

serve(Forks, Line) ->
    receive
        {hungry, From, Left, Right} -> next(Forks, Line ++ [{From, Left, Right}], []);
        {done, Left, Right} -> next([Left, Right | Forks], Line, [])
    end.

next(Forks, [], Kept) -> serve(Forks, back(Kept, []));
next(Forks, [{From, Left, Right} = Guest | Line], Kept) ->
    case is_there(Left, Forks) andalso is_there(Right, Forks) of
        true -> From ! {self(), eat}, next(without(Left, without(Right, Forks)), Line, Kept);
        false -> next(Forks, Line, [Guest | Kept])
    end.

back([], Line) -> Line;
back([Guest | Kept], Line) -> back(Kept, [Guest | Line]).

is_there(_, []) -> false;
is_there(Fork, [Other | Forks]) -> Fork =:= Other orelse is_there(Fork, Forks).

without(Fork, [Fork | Forks]) -> Forks;
without(Fork, [Other | Forks]) -> [Other | without(Fork, Forks)].

dine(_, _, _, 0) -> ok;
dine(Main, Waiter, N, Times) ->
    Waiter ! {hungry, self(), N, N rem 4 + 1},
    receive {Waiter, eat} -> Main ! {ate, N}, Waiter ! {done, N, N rem 4 + 1} end,
    dine(Main, Waiter, N, Times - 1).
