%% A bank, for bank_client: an unknown account crashes the transfer and not the bank.
-module(bank).
-export([open/1, close/1, transfer/4, serve/1]).

open(Accounts) -> spawn(bank, serve, [Accounts]).

close(Bank) -> call(Bank, close).

transfer(Bank, From, To, N) -> call(Bank, {transfer, From, To, N}).

call(Bank, What) ->
    Bank ! {call, self(), What},
    receive {Bank, Answer} -> Answer after 3 -> closed end.

serve(Accounts) ->
    receive
        {call, From, close} -> From ! {self(), Accounts};
        {call, From, {transfer, A, B, N}} ->
            {Answer, Next} = try moved(A, B, N, Accounts)
                             catch
                                 throw:Why -> {{refused, Why}, Accounts};
                                 error:Why -> {{crashed, Why}, Accounts}
                             end,
            From ! {self(), Answer},
            serve(Next)
    end.

moved(A, B, N, Accounts) -> {ok, added(B, N, added(A, -N, Accounts))}.

added(Name, N, [{Name, Sum} | _]) when Sum + N < 0 -> throw(too_little);
added(Name, N, [{Name, Sum} | Accounts]) -> [{Name, Sum + N} | Accounts];
added(Name, N, [Account | Accounts]) -> [Account | added(Name, N, Accounts)].
