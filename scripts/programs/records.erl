%% listed
-module(records).
-export([new/2, grow/1, area/1]).

-record(box, {name, sides = [], weight = 0}).

new(Name, Sides) -> #box{name = Name, sides = Sides}.

grow(#box{weight = W} = B) when W < 100 -> B#box{weight = W + 1, name = big};
grow(#box{} = B) -> B.

area(#box{sides = [A, B | _]}) -> A * B;
area(#box{}) -> 0.
