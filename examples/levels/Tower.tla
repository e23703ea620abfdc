---- MODULE Tower ----
VARIABLE now, bell
Fast == INSTANCE Clock WITH Limit <- now, hour <- bell
Next == INSTANCE Clock WITH Limit <- 24, hour <- bell'
Slow == INSTANCE Clock WITH Limit <- 24, hour <- now
Chime == Slow!Tick /\ bell' = now
====
