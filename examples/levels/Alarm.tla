---- MODULE Alarm ----
EXTENDS Clock
CONSTANT Wake
VARIABLE rings
ASSUME Wake > hour
Late == Tick'
Always == [](hour' > hour)
Holds(P) == []P
Rises == Holds(hour' > hour)
Stays == Holds([Tick]_hour)
====
