---- MODULE Other ----
f[x \in {1, 2}, y \in {3}] == x + y
INSTANCE Naturals WITH Nat <- {1}
THEOREM \A x \in {1} : f[x, 3] = 4
====
