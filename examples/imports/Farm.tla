---- MODULE Farm ----
EXTENDS Hen, Barn
Fed == hen
====
