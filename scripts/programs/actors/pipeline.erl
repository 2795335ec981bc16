%% Two pipelines of three modules end in one sink.
-module(pipeline).
-export([main/0]).

main() ->
    Sink = spawn(sink, run, [self(), 2]),
    Left = spawn(stage, run, [Sink, 100]),
    Right = spawn(stage, run, [spawn(stage, run, [Sink, 1000]), 100]),
    feed([1, 2], [Left, Right]),
    receive finished -> ok end.

feed([], Pids) -> [Pid ! done || Pid <- Pids];
feed([N | Ns], Pids) -> [Pid ! {item, N} || Pid <- Pids], feed(Ns, Pids).
