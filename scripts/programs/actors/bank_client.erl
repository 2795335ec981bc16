%% Transfers between accounts of a bank, which is another module: whether one has enough depends on who came before.
-module(bank_client).
-export([main/0, transfer/5]).

main() ->
    Bank = bank:open([{a, 10}, {b, 5}, {c, 0}]),
    Self = self(),
    All = [{a, b, 8}, {b, c, 9}, {c, a, 3}, {a, c, 4}, {b, nobody, 1}],
    Clients = [spawn(bank_client, transfer, [Self, Bank, From, To, N]) || {From, To, N} <- All],
    [receive {Client, Answer} -> erlang:display(Answer) end || Client <- Clients],
    erlang:display(bank:close(Bank)),
    erlang:display(bank:transfer(Bank, a, b, 1)).

transfer(Main, Bank, From, To, N) ->
    case bank:transfer(Bank, From, To, N) of
        {refused, too_little} -> Main ! {self(), {retried, bank:transfer(Bank, From, To, N - 1)}};
        Answer -> Main ! {self(), Answer}
    end.
