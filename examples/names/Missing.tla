---- MODULE Missing ----
EXTENDS Doubler, Halver
Half == Double(count) / 4
====
