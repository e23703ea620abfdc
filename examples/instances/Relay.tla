---- MODULE Relay ----
EXTENDS Naturals
CONSTANT Message
VARIABLES line, back

INSTANCE Channel WITH Data <- Message, chan <- line
Far == INSTANCE Channel WITH Data <- Message
Near == INSTANCE Channel WITH Data <- Message, chan <- line, wire <- back
Twice == INSTANCE Channel WITH Data <- Message, chan <- line, chan <- back

Step == Rcv \/ Near!Rcv \/ Near!Resend
====
