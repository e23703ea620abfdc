---- MODULE Account ----
EXTENDS Naturals
CONSTANT Limit(_)
VARIABLES balance, owners

Deposit(amount) == balance' = balance + amount
Best(F(_), x, y) == IF F(x) < F(y) THEN y ELSE x

Once == Deposit(1)
Twice == Deposit(1, 2)
Later == Deposit
Most == Limit + 1
Better == Best(Limit, 1, 2)
Worse == Best(balance, 1, 2)
Both == Best(Best, 1, 2)
Rise == [owners EXCEPT !["me"] = @ + 1]
Fall == @ + 1
====
