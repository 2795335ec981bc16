%% Three add to a cell by reading it and writing it back.
-module(lost_update).
-export([main/0, cell/1, add/3]).

main() ->
    Cell = spawn(lost_update, cell, [0]),
    Self = self(),
    [spawn(lost_update, add, [Self, Cell, N]) || N <- [1, 10, 100]],
    [receive added -> ok end || _ <- [1, 2, 3]],
    Cell ! {get, self()},
    receive {value, V} -> erlang:display(V) end,
    Cell ! stop.

cell(V) ->
    receive
        {get, From} -> From ! {value, V}, cell(V);
        {set, New} -> cell(New);
        stop -> ok
    end.

add(Main, Cell, N) ->
    Cell ! {get, self()},
    receive {value, V} -> Cell ! {set, V + N} end,
    Main ! added.
