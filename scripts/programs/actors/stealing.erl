%% A worker with no work of its own steals half of another's: who does which job is open.
-module(stealing).
-export([main/0, work/3]).

main() ->
    Self = self(),
    All = [{a, [1, 2, 3, 4, 5, 6]}, {b, [7]}, {c, []}],
    Pids = [A, B, C] = [spawn_link(stealing, work, [Self, Name, Jobs]) || {Name, Jobs} <- All],
    A ! {steal_from, [B, C]},
    B ! {steal_from, [C, A]},
    C ! {steal_from, [A, B]},
    done(7),
    [Pid ! stop || Pid <- Pids],
    [receive {Pid, Name, Count} -> erlang:display({Name, Count}) end || Pid <- Pids].

done(0) -> ok;
done(N) -> receive {done, Name, Job} -> erlang:display({Name, Job}), done(N - 1) end.

work(Main, Name, Jobs) -> receive {steal_from, Others} -> work(Main, Name, Jobs, Others, 0) end.

work(Main, Name, Jobs, Others, Count) ->
    receive
        stop -> Main ! {self(), Name, Count};
        {steal, From} ->
            {Mine, Yours} = halves(Jobs, [], []),
            From ! {self(), Yours},
            work(Main, Name, Mine, Others, Count)
    after wait(Jobs) ->
        next(Main, Name, Jobs, Others, Count)
    end.

wait([]) -> 1;
wait(_) -> 0.

next(Main, Name, [], [Other | Others], Count) ->
    Other ! {steal, self()},
    receive
        {Other, Jobs} -> work(Main, Name, Jobs, Others ++ [Other], Count)
    after 1 ->
        erlang:display(busy),
        work(Main, Name, [], Others ++ [Other], Count)
    end;
next(Main, Name, [Job | Jobs], Others, Count) ->
    Main ! {done, Name, Job},
    work(Main, Name, Jobs, Others, Count + 1).

halves([], Mine, Yours) -> {Mine, Yours};
halves([X], Mine, Yours) -> {[X | Mine], Yours};
halves([X, Y | More], Mine, Yours) -> halves(More, [X | Mine], [Y | Yours]).
