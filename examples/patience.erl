-module(patience).
-export([main/0, answer/1]).

%% The answer can come before the wait is over, or too late.
main() ->
    spawn(?MODULE, answer, [self()]),
    receive
        {answer, N} -> erlang:display(N)
    after 100 ->
        erlang:display(too_late)
    end.

answer(To) ->
    To ! {answer, 42}.
