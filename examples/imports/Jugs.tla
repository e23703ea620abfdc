---- MODULE Jugs ----
EXTENDS Litres, Gallons
VARIABLE jug
Filled == jug = Full
====
