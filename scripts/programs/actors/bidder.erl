%% A bidder, for auction: bids one more than the price, until it is too much for him.
-module(bidder).
-export([run/4]).

run(Hall, Name, Most, Ms) ->
    receive after Ms -> hall:enter(Hall, Name) end,
    bid(Hall, Name, Most, 0).

bid(Hall, Name, Most, Times) ->
    receive
        {Hall, price, _, Name} -> bid(Hall, Name, Most, Times);
        {Hall, price, Price, _} when Price < Most -> hall:bid(Hall, Name, Price + 1), bid(Hall, Name, Most, Times + 1);
        {Hall, price, Price, Best} -> exit({left, Name, Price, Best, Times});
        {Hall, over} -> exit({stayed, Name, Times})
    end.
