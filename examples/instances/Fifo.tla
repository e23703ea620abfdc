---- MODULE Fifo ----
CONSTANT Message
VARIABLES in, out

Inner(buf) == INSTANCE Buffer

Started == Inner(<<>>)!Init /\ Inner(<<>>)!InChan!TypeInvariant
Spec == \EE buf : Inner(buf)!Spec
====
