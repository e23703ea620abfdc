---- MODULE Counter ----
EXTENDS Naturals
CONSTANT Limit
VARIABLE count

Init == count = 0
Next == /\ count < Limit
        /\ count' = count + 1
     \/ UNCHANGED count
Spec == Init /\ [][Next]_count
Bound == LET top == Limit
         count <= top
====
