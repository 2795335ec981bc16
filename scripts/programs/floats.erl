%% refused R9 Unsupported fconv
-module(floats).
-export([half/1, pi/0]).

half(X) -> X / 2.

pi() -> 3.14159.
