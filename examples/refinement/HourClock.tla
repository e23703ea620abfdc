---- MODULE HourClock ----
(* A clock that shows the hour. *)
EXTENDS Naturals
VARIABLE hour
Init == hour \in 1..12
Next == hour' = IF hour = 12 THEN 1 ELSE hour + 1
Spec == Init /\ [][Next]_hour /\ WF_hour(Next)
====
