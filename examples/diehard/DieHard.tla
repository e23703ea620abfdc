---- MODULE DieHard ----
\* A jug of three gallons, a jug of five, and a tap. How are four gallons measured?
EXTENDS Naturals
VARIABLES three, five

jugs == <<three, five>>
Least(m, n) == IF m < n THEN m ELSE n

TypeOK == /\ three \in 0 .. 3
          /\ five \in 0 .. 5
Init == /\ three = 0
        /\ five = 0

Fill == \/ three' = 3 /\ UNCHANGED five
        \/ five' = 5 /\ UNCHANGED three
Empty == \/ three' = 0 /\ UNCHANGED five
         \/ five' = 0 /\ UNCHANGED three
PourIntoFive == LET poured == Least(three, 5 - five)
                IN  /\ three' = three - poured
                    /\ five' = five + poured
PourIntoThree == LET poured == Least(five, 3 - three)
                 IN  /\ five' = five - poured
                     /\ three' = three + poured

Next == Fill \/ Empty \/ PourIntoFive \/ PourIntoThree
Spec == Init /\ [][Next]_jugs

\* A model checker that refutes this finds the answer.
NeverFour == five # 4
THEOREM Spec => []TypeOK
====
