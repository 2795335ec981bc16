%% Readers may be in together, a writer alone; what each reader reads depends on who came in first.
-module(readers_writers).
-export([main/0, room/2, reader/3, writer/3]).

main() ->
    Self = self(),
    Room = spawn(readers_writers, room, [0, 0]),
    spawn(readers_writers, reader, [Self, Room, anne]),
    spawn(readers_writers, writer, [Self, Room, 7]),
    spawn(readers_writers, reader, [Self, Room, ben]),
    spawn(readers_writers, writer, [Self, Room, 5]),
    spawn(readers_writers, reader, [Self, Room, carla]),
    told(5).

told(0) -> ok;
told(N) -> receive {done, What} -> erlang:display(What), told(N - 1) end.

room(Value, Readers) ->
    receive
        {read, From} -> From ! {value, Value}, room(Value, Readers + 1);
        left -> room(Value, Readers - 1);
        {write, From} when Readers =:= 0 ->
            From ! {value, Value},
            receive {From, New} -> room(New, 0) end
    end.

reader(Main, Room, Name) ->
    Room ! {read, self()},
    receive {value, First} -> ok end,
    Room ! {read, self()},
    receive {value, Second} -> ok end,
    Room ! left,
    Room ! left,
    Main ! {done, {Name, First, Second}}.

writer(Main, Room, By) ->
    Room ! {write, self()},
    receive {value, Value} -> Room ! {self(), Value * 10 + By} end,
    Main ! {done, {wrote, By, on, Value}}.
