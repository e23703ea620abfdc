---- MODULE Bakery ----
\* The bakery algorithm: each process takes a number greater than all that it saw, and the lowest
\* number is served first (L. Lamport, A New Solution of Dijkstra's Concurrent Programming Problem,
\* 1974). A process reads the others one after another; what it reads may be old by then.
EXTENDS Naturals
CONSTANT Count
ASSUME Count \in Nat

Processes == 1 .. Count
VARIABLES at, number, greatest, unseen

all == <<at, number, greatest, unseen>>

Places == {"away", "choosing", "waiting", "served"}
TypeOK == /\ at \in [Processes -> Places]
          /\ number \in [Processes -> Nat]
          /\ greatest \in [Processes -> Nat]
          /\ unseen \in [Processes -> SUBSET Processes]

Init == /\ at = [p \in Processes |-> "away"]
        /\ number = [p \in Processes |-> 0]
        /\ greatest = [p \in Processes |-> 0]
        /\ unseen = [p \in Processes |-> {}]

Others(p) == Processes \ {p}

\* Of equal numbers, the lower process goes first.
Precedes(p, q) == \/ number[p] < number[q]
                  \/ number[p] = number[q] /\ p < q

Come(p) == /\ at[p] = "away"
           /\ at' = [at EXCEPT ![p] = "choosing"]
           /\ greatest' = [greatest EXCEPT ![p] = 0]
           /\ unseen' = [unseen EXCEPT ![p] = Others(p)]
           /\ UNCHANGED number
Look(p, q) == /\ at[p] = "choosing"
              /\ q \in unseen[p]
              /\ greatest' = [greatest EXCEPT ![p] = IF number[q] > @ THEN number[q] ELSE @]
              /\ unseen' = [unseen EXCEPT ![p] = @ \ {q}]
              /\ UNCHANGED <<at, number>>
Take(p) == /\ at[p] = "choosing"
           /\ unseen[p] = {}
           /\ number' = [number EXCEPT ![p] = greatest[p] + 1]
           /\ at' = [at EXCEPT ![p] = "waiting"]
           /\ unseen' = [unseen EXCEPT ![p] = Others(p)]
           /\ UNCHANGED greatest
Pass(p, q) == /\ at[p] = "waiting"
              /\ q \in unseen[p]
              /\ at[q] # "choosing"
              /\ number[q] = 0 \/ Precedes(p, q)
              /\ unseen' = [unseen EXCEPT ![p] = @ \ {q}]
              /\ UNCHANGED <<at, number, greatest>>
Enter(p) == /\ at[p] = "waiting"
            /\ unseen[p] = {}
            /\ at' = [at EXCEPT ![p] = "served"]
            /\ UNCHANGED <<number, greatest, unseen>>
Leave(p) == /\ at[p] = "served"
            /\ at' = [at EXCEPT ![p] = "away"]
            /\ number' = [number EXCEPT ![p] = 0]
            /\ UNCHANGED <<greatest, unseen>>

Next == \E p \in Processes :
            \/ Come(p) \/ Take(p) \/ Enter(p) \/ Leave(p)
            \/ \E q \in Processes : Look(p, q) \/ Pass(p, q)
Spec == Init /\ [][Next]_all /\ \A p \in Processes : WF_all(Take(p) \/ Enter(p) \/ Leave(p))

Exclusion == \A p, q \in Processes : p # q => ~(at[p] = "served" /\ at[q] = "served")
THEOREM Spec => []Exclusion
====
