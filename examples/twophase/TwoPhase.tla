---- MODULE TwoPhase ----
\* Two-phase commit. Each manager says when it is prepared, and the coordinator decides for all
\* (J. Gray, Notes on Data Base Operating Systems, 1978). Messages are never lost, and stay.
EXTENDS Commit
VARIABLES decision, ready, sent

all == <<state, decision, ready, sent>>

Prepared == [kind : {"prepared"}, from : Managers]
Decided == [kind : {"commit", "abort"}]
TypeOK == /\ StateOK
          /\ decision \in {"none", "commit", "abort"}
          /\ ready \subseteq Managers
          /\ sent \subseteq Prepared \cup Decided

Init == /\ state = [m \in Managers |-> "working"]
        /\ decision = "none"
        /\ ready = {}
        /\ sent = {}

Send(message) == sent' = sent \cup {message}

---- \* A manager.
Prepare(m) == /\ state[m] = "working"
              /\ state' = [state EXCEPT ![m] = "prepared"]
              /\ Send([kind |-> "prepared", from |-> m])
              /\ UNCHANGED <<decision, ready>>
GiveUp(m) == /\ state[m] = "working"
             /\ state' = [state EXCEPT ![m] = "aborted"]
             /\ UNCHANGED <<decision, ready, sent>>
Obey(m) == /\ \/ /\ [kind |-> "commit"] \in sent
                 /\ state' = [state EXCEPT ![m] = "committed"]
              \/ /\ [kind |-> "abort"] \in sent
                 /\ state' = [state EXCEPT ![m] = "aborted"]
           /\ UNCHANGED <<decision, ready, sent>>

---- \* The coordinator.
Hear(m) == /\ decision = "none"
           /\ [kind |-> "prepared", from |-> m] \in sent
           /\ ready' = ready \cup {m}
           /\ UNCHANGED <<state, decision, sent>>
Decide(what) == /\ decision = "none"
                /\ what = "commit" => ready = Managers
                /\ decision' = what
                /\ Send([kind |-> what])
                /\ UNCHANGED <<state, ready>>

Next == \/ \E m \in Managers : Prepare(m) \/ GiveUp(m) \/ Obey(m) \/ Hear(m)
        \/ \E what \in {"commit", "abort"} : Decide(what)
Spec == Init /\ [][Next]_all

THEOREM Spec => [](TypeOK /\ Consistent)
====
