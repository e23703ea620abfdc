---- MODULE MinuteClock ----
(* A clock that shows the hour and the minute. With its minutes hidden it is a clock that shows the hour. *)
EXTENDS Naturals
VARIABLES now, minute
Init == now \in 0..719 /\ minute = now % 60
Tick == /\ now' = (now + 1) % 720
        /\ minute' = now' % 60
Spec == Init /\ [][Tick]_<<now, minute>> /\ WF_<<now, minute>>(Tick)
Hours == INSTANCE HourClock WITH hour <- IF now \div 60 = 0 THEN 12 ELSE now \div 60
THEOREM Spec => Hours!Spec
====
