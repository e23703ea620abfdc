---- MODULE Litres ----
EXTENDS Naturals
Full == 5
====
