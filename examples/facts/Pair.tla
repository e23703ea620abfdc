---- MODULE Pair ----
VARIABLE left
Left == INSTANCE Counter WITH Limit <- 3, count <- left
Step == Left!Next
====
