---- MODULE Scale ----
EXTENDS Litres
---- MODULE Inner ----
EXTENDS Scale
====
====
