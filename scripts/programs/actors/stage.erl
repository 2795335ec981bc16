%% A stage of a pipeline, for pipeline.
-module(stage).
-export([run/2]).

run(Next, Add) ->
    receive
        {item, N} -> Next ! {item, N + Add}, run(Next, Add);
        done -> Next ! done
    end.
