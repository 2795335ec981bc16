%% listed
-module(nested_tries).
-export([run/1, after_all/1]).

run(X) ->
    try
        try inner(X) of
            ok -> fine;
            Other -> {other, Other}
        catch
            throw:T -> {thrown, T}
        end
    catch
        error:badarg -> bad;
        error:{badmatch, V} -> {no_match, V};
        exit:R -> {left, R}
    after
        erlang:display(done)
    end.

inner(0) -> ok;
inner(1) -> throw(one);
inner(2) -> exit(two);
inner(3) -> error(badarg);
inner(X) -> {a, Y} = X, Y.

after_all(X) ->
    try inner(X) after inner(0) end.
