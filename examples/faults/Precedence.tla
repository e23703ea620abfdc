---- MODULE Precedence ----
EXTENDS Naturals
CONSTANTS a, b, c
Fine == a /\ b => c
Both == a /\ b \/ c
====
