%% refused R9 Unsupported bs_start_match3
-module(binaries).
-export([head/1, text/0]).

head(<<X:8, Rest/binary>>) -> {X, Rest}.

text() -> <<"bytes">>.
