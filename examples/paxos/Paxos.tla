---- MODULE Paxos ----
\* Paxos, for one value: who leads a ballot asks a quorum for what it voted so far, and then asks for
\* votes that no lower ballot can contradict (L. Lamport, The Part-Time Parliament, 1998).
EXTENDS Integers
CONSTANTS Acceptors, Quorums, Values

ASSUME /\ \A q \in Quorums : q \subseteq Acceptors
       /\ \A q, r \in Quorums : q \cap r # {}

Ballots == Nat
None == CHOOSE v : v \notin Values

\* Of each acceptor: the highest ballot that it has heard of, and its last vote. And all messages.
VARIABLES heard, voted, choice, sent
all == <<heard, voted, choice, sent>>

Asks == [kind : {"ask"}, ballot : Ballots]
Promises == [kind : {"promise"}, from : Acceptors, ballot : Ballots,
             voted : Ballots \cup {-1}, choice : Values \cup {None}]
Proposals == [kind : {"propose"}, ballot : Ballots, choice : Values]
Votes == [kind : {"vote"}, from : Acceptors, ballot : Ballots, choice : Values]
TypeOK == /\ heard \in [Acceptors -> Ballots \cup {-1}]
          /\ voted \in [Acceptors -> Ballots \cup {-1}]
          /\ choice \in [Acceptors -> Values \cup {None}]
          /\ sent \subseteq Asks \cup Promises \cup Proposals \cup Votes

Init == /\ heard = [a \in Acceptors |-> -1]
        /\ voted = [a \in Acceptors |-> -1]
        /\ choice = [a \in Acceptors |-> None]
        /\ sent = {}

Send(message) == sent' = sent \cup {message}

Ask(b) == /\ Send([kind |-> "ask", ballot |-> b])
          /\ UNCHANGED <<heard, voted, choice>>

Promise(a) == \E m \in sent :
    /\ m.kind = "ask"
    /\ m.ballot > heard[a]
    /\ heard' = [heard EXCEPT ![a] = m.ballot]
    /\ Send([kind |-> "promise", from |-> a, ballot |-> m.ballot,
             voted |-> voted[a], choice |-> choice[a]])
    /\ UNCHANGED <<voted, choice>>

Propose(b, v) ==
    /\ ~ \E m \in sent : m.kind = "propose" /\ m.ballot = b
    /\ \E q \in Quorums :
         LET answers == {m \in sent : m.kind = "promise" /\ m.ballot = b /\ m.from \in q}
             votes == {m \in answers : m.voted >= 0}
         IN  /\ \A a \in q : \E m \in answers : m.from = a
             /\ \/ votes = {}
                \/ \E m \in votes : /\ m.choice = v
                                    /\ \A n \in votes : m.voted >= n.voted
    /\ Send([kind |-> "propose", ballot |-> b, choice |-> v])
    /\ UNCHANGED <<heard, voted, choice>>

Vote(a) == \E m \in sent :
    /\ m.kind = "propose"
    /\ m.ballot >= heard[a]
    /\ heard' = [heard EXCEPT ![a] = m.ballot]
    /\ voted' = [voted EXCEPT ![a] = m.ballot]
    /\ choice' = [choice EXCEPT ![a] = m.choice]
    /\ Send([kind |-> "vote", from |-> a, ballot |-> m.ballot, choice |-> m.choice])

Next == \/ \E b \in Ballots : Ask(b) \/ \E v \in Values : Propose(b, v)
        \/ \E a \in Acceptors : Promise(a) \/ Vote(a)
Spec == Init /\ [][Next]_all

Chosen(v) == \E b \in Ballots, q \in Quorums : \A a \in q :
                 [kind |-> "vote", from |-> a, ballot |-> b, choice |-> v] \in sent
Agreement == \A v, w \in Values : Chosen(v) /\ Chosen(w) => v = w
THEOREM Spec => [](TypeOK /\ Agreement)
====
