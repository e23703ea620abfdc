---- MODULE Counter ----
EXTENDS Naturals
CONSTANT Limit
VARIABLE count
Init == count = 0
Next == count < Limit /\ count' = count + 1
Spec == Init /\ [][Next]_count
====
