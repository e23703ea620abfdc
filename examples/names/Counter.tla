---- MODULE Counter ----
EXTENDS Naturals
CONSTANT Limit
VARIABLE count

Init == count = 0
Next == LET top == Limit - 1
            step(n) == n + 1
        IN  /\ count < top
            /\ count' = step(count)
Spec == Init /\ [][Next]_count
====
