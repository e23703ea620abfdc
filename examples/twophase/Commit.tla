---- MODULE Commit ----
\* What each resource manager of a transaction may be, and what all of them together must keep.
CONSTANT Managers
VARIABLE state

States == {"working", "prepared", "committed", "aborted"}
StateOK == state \in [Managers -> States]

\* None has committed while another one has aborted.
Consistent == \A m, n \in Managers : ~(state[m] = "committed" /\ state[n] = "aborted")
====
