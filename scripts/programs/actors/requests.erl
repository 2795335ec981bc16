%% Requests have numbers of their own; an answer in time is taken, a late one is thrown away when it comes, or never seen.
-module(requests).
-export([main/0, serve/1, client/3]).

main() ->
    Self = self(),
    Server = spawn(requests, serve, [0]),
    Clients = [spawn(requests, client, [Self, Server, Ms]) || Ms <- [[0, 2, 1], [1, 0], [3, 2]]],
    [receive {Client, Answers} -> erlang:display(Answers) end || Client <- Clients],
    Server ! {{self(), last}, 0},
    receive {{_, last}, Served} -> erlang:display({served, Served}) end.

serve(Served) ->
    receive
        {{From, last} = Ref, _} -> From ! {Ref, Served};
        {{From, _} = Ref, Ms} ->
            receive after Ms -> From ! {Ref, Served} end,
            serve(Served + 1)
    end.

client(Main, Server, All) ->
    Answers = asked(Server, 1, All),
    Main ! {self(), {Answers, thrown(0)}}.

asked(_, _, []) -> [];
asked(Server, N, [Ms | Rest]) ->
    Ref = {self(), N},
    Server ! {Ref, Ms},
    Answer = receive {Ref, Served} -> {N, Served} after 2 -> {N, late} end,
    [Answer | asked(Server, N + 1, Rest)].

thrown(N) -> receive {{_, _}, _} -> thrown(N + 1) after 4 -> N end.
