%% A process sends to itself while others send to it.
-module(own_messages).
-export([main/0, other/2]).

main() ->
    Self = self(),
    spawn(own_messages, other, [Self, a]),
    spawn(own_messages, other, [Self, b]),
    Self ! own,
    receive go -> ok after 0 -> ok end,
    Self ! own,
    take(4).

take(0) -> ok;
take(N) -> receive Name -> erlang:display(Name), take(N - 1) end.

other(To, Name) -> To ! Name.
