%% The end of a pipeline, for pipeline.
-module(sink).
-export([run/2]).

run(Main, Left) ->
    receive
        {item, N} -> erlang:display(N), run(Main, Left);
        done when Left =:= 1 -> Main ! finished;
        done -> run(Main, Left - 1)
    end.
