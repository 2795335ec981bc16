%% A crash goes along a chain whose members trap exits now and then: how far it comes is open.
-module(chain_toggled).
-export([main/0, member/3]).

main() ->
    process_flag(trap_exit, true),
    First = spawn_link(chain_toggled, member, [self(), 1, 5]),
    receive {last, Last} -> exit(Last, crash) end,
    collect(First).

collect(First) ->
    receive
        {stopped, N, Why} -> erlang:display({stopped, N, Why}), collect(First);
        {'EXIT', First, Why} -> erlang:display({first, Why})
    after 8 ->
        exit(First, kill),
        receive {'EXIT', First, Why} -> erlang:display({after_all, Why}) end
    end.

member(Main, N, Max) ->
    if N < Max -> spawn_link(chain_toggled, member, [Main, N + 1, Max]);
       true -> Main ! {last, self()}
    end,
    toggle(Main, N, 3).

toggle(_, N, 0) -> receive {never, N} -> ok end;
toggle(Main, N, Times) ->
    process_flag(trap_exit, N rem 2 =:= Times rem 2),
    receive
        {'EXIT', _, Why} ->
            Main ! {stopped, N, Why},
            process_flag(trap_exit, false),
            toggle(Main, N, Times - 1)
    after 1 ->
        process_flag(trap_exit, false),
        toggle(Main, N, Times - 1)
    end.
