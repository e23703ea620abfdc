---- MODULE Gallons ----
EXTENDS Naturals
Full == 3
====
