%% refused R11 LiteralRange {integer,9223372036854775808}
-module(big_numbers).
-export([limit/0, above/0]).

limit() -> {9223372036854775807, -9223372036854775808}.

above() -> 9223372036854775808.
