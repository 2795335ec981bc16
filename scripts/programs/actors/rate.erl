%% A limiter lets two through and no more until it was quiet for a millisecond: which requests are denied is open.
-module(rate).
-export([main/0, limit/2, client/4]).

main() ->
    Self = self(),
    Limiter = spawn(rate, limit, [2, 0]),
    spawn(rate, client, [Self, Limiter, a, [0, 0, 2]]),
    spawn(rate, client, [Self, Limiter, b, [1, 0, 1]]),
    [receive {Name, Answers} -> erlang:display({Name, Answers}) end || Name <- [a, b]],
    Limiter ! {stop, Self},
    receive {refilled, N} -> erlang:display({refilled, N > 0}) end.

limit(Tokens, Filled) ->
    receive
        {ask, From} when Tokens > 0 -> From ! {self(), passed}, limit(Tokens - 1, Filled);
        {ask, From} -> From ! {self(), denied}, limit(Tokens, Filled);
        {stop, From} -> From ! {refilled, Filled}
    after refill(Tokens) ->
        limit(2, Filled + 1)
    end.

refill(2) -> infinity;
refill(_) -> 1.

client(Main, Limiter, Name, Waits) -> Main ! {Name, asked(Limiter, Waits)}.

asked(_, []) -> [];
asked(Limiter, [Ms | Waits]) ->
    receive after Ms -> Limiter ! {ask, self()} end,
    receive {Limiter, Answer} -> [Answer | asked(Limiter, Waits)] end.
