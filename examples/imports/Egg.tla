---- MODULE Egg ----
EXTENDS Hen
VARIABLE egg
====
