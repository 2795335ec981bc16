%% The hall of an auction, for auction: it is over when nobody bids for two milliseconds.
-module(hall).
-export([open/2, enter/2, bid/3, close/2, run/2]).

open(Main, Price) -> spawn(hall, run, [Main, Price]).

enter(Hall, Name) -> Hall ! {enter, self(), Name}.

bid(Hall, Name, Price) -> Hall ! {bid, Name, Price}.

close(Hall, Bidders) ->
    exit(Hall, closed),
    [Bidder ! {Hall, over} || Bidder <- Bidders].

run(Main, Price) -> run(Main, [], nobody, Price).

run(Main, Inside, Best, Price) ->
    receive
        {enter, Pid, Name} -> Pid ! {self(), price, Price, Best}, run(Main, [{Pid, Name} | Inside], Best, Price);
        {bid, Name, More} when More > Price -> tell(Inside, Name, More), run(Main, Inside, Name, More);
        {bid, _, _} -> run(Main, Inside, Best, Price)
    after 2 ->
        Main ! {self(), Best, Price},
        receive never -> ok end
    end.

tell([], _, _) -> ok;
tell([{Pid, _} | Inside], Best, Price) -> Pid ! {self(), price, Price, Best}, tell(Inside, Best, Price).
