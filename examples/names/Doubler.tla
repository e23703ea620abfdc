---- MODULE Doubler ----
EXTENDS Counter
Limit == 10
Double(count) == count + count
Reach == \E n \in {n, 1} : n + total > Limit
====
