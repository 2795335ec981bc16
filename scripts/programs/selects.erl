%% listed
-module(selects).
-export([day/1, size_of/1, number/1, mixed/1]).

day(monday) -> 1; day(tuesday) -> 2; day(wednesday) -> 3; day(thursday) -> 4;
day(friday) -> 5; day(saturday) -> 6; day(sunday) -> 7; day(_) -> none.

size_of({}) -> 0; size_of({_}) -> 1; size_of({_, _}) -> 2; size_of({_, _, _}) -> 3;
size_of({_, _, _, _}) -> 4; size_of(_) -> many.

number(1) -> a; number(2) -> b; number(3) -> c; number(5) -> d; number(8) -> e;
number(13) -> f; number(-21) -> g; number(1000000007) -> h; number(_) -> i.

mixed(0) -> zero; mixed(zero) -> 0; mixed([]) -> nil; mixed([_ | _]) -> cons;
mixed({tag, X}) -> X; mixed({other, X, _}) -> X.
