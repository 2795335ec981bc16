%% listed
-module(literals).
-export([all/0, text/0, deep/0, quoted/0]).

all() -> [{a, 1}, {b, [2, 3 | tail]}, {}, [], [[]], {{}, {{}}}, -1, 16#ffff, $a].

text() -> "with \"quotes\", a line\nand a tab\t".

deep() -> [[[[[[[[[[{[{[{x}]}]}]]]]]]]]]].

quoted() -> ['Big', 'with space', 'it\'s', 'new\nline', '', 'end', ok, a@b, 'æ'].
