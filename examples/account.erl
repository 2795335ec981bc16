-module(account).
-export([main/0, keep/1, pay/3]).

%% Two payments read the balance, add to it and write it back: one of them can be lost.
main() ->
    Account = spawn(?MODULE, keep, [100]),
    spawn(?MODULE, pay, [Account, 10, self()]),
    spawn(?MODULE, pay, [Account, 5, self()]),
    receive paid -> ok end,
    receive paid -> ok end,
    Account ! {read, self()},
    receive {balance, Balance} -> erlang:display(Balance) end.

keep(Balance) ->
    receive
        {read, From} -> From ! {balance, Balance}, keep(Balance);
        {write, New} -> keep(New)
    end.

pay(Account, Amount, Payer) ->
    Account ! {read, self()},
    receive {balance, Balance} -> Account ! {write, Balance + Amount} end,
    Payer ! paid.
