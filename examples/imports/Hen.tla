---- MODULE Hen ----
EXTENDS Egg
VARIABLE hen
====
