---- MODULE Clock ----
EXTENDS Naturals
CONSTANT Limit
VARIABLE hour
ASSUME Limit > 0
Init == hour = 0
Tick == hour' = IF hour < Limit THEN hour + 1 ELSE 0
Spec == Init /\ [][Tick]_hour
====
