---- MODULE Buffer ----
EXTENDS Sequences
CONSTANT Message
VARIABLES in, out, buf

InChan == INSTANCE Channel WITH Data <- Message, chan <- in
OutChan == INSTANCE Channel WITH Data <- Message, chan <- out

Init == InChan!Init /\ OutChan!Init /\ buf = <<>>
Send(message) == InChan!Send(message) /\ UNCHANGED <<out, buf>>
Take == InChan!Rcv /\ buf' = Append(buf, in.val) /\ UNCHANGED out
Pass == /\ buf # <<>>
        /\ OutChan!Send(Head(buf))
        /\ buf' = Tail(buf)
        /\ UNCHANGED in
Receive == OutChan!Rcv /\ UNCHANGED <<in, buf>>
Next == Take \/ Pass \/ Receive \/ \E message \in Message : Send(message)
Spec == Init /\ [][Next]_<<in, out, buf>>
====
