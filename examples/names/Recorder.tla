---- MODULE Recorder ----
EXTENDS Counter, Sequences
---- MODULE Log ----
VARIABLE log
Write == log' = Append(log, count)
====
---- MODULE Logged ----
EXTENDS Log
Step == Next /\ Write
====
Bound == [](count =< Limit)
====
