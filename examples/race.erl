-module(race).
-export([main/0, greet/2]).

%% Two processes greet a third, which shows the greeting that comes first.
main() ->
    spawn(?MODULE, greet, [self(), one]),
    spawn(?MODULE, greet, [self(), two]),
    receive Name -> erlang:display(Name) end.

greet(To, Name) ->
    To ! Name.
