%% A tree of processes folds its leaves by an operation for which the order counts; a part that crashes counts as 1.
-module(fold_tree).
-export([main/0, fold/2]).

main() ->
    process_flag(trap_exit, true),
    [folded(Tree) || Tree <- [{{1, 2}, {3, 4}}, {{8, {0, 3}}, {5, 2}}, {6, bad}, bad]].

folded(Tree) ->
    Pid = spawn_link(fold_tree, fold, [self(), Tree]),
    erlang:display({Tree, taken(Pid)}),
    receive {'EXIT', Pid, Why} -> erlang:display(Why) after 5 -> erlang:display(no_end) end.

taken(Pid) ->
    receive {Pid, Value} -> Value; {'EXIT', Pid, {Why, _}} -> self() ! {'EXIT', Pid, again}, {crash, Why} end.

fold(Parent, {Left, Right}) ->
    process_flag(trap_exit, true),
    Self = self(),
    spawn_link(fold_tree, fold, [Self, Left]),
    spawn_link(fold_tree, fold, [Self, Right]),
    First = value(),
    Second = value(),
    Parent ! {Self, First * 10 - Second};
fold(Parent, Leaf) -> Parent ! {self(), Leaf + 0}.

value() ->
    receive
        {Pid, Value} -> unlink(Pid), Value;
        {'EXIT', _, {badarith, _}} -> 1
    end.
