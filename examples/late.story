# Publisher P at A, and two subscribers at B: S is there from the start, and T is late and wants events with n above 1.
brokers = ["A", "B"]
links = [["A", "B"]]

[[publisher]]
name = "P"
at = "A"

[[subscriber]]
name = "S"
at = "B"

[[subscriber]]
name = "T"
at = "B"
filter = "n > 1"
late = true
---
# A late subscriber gets what is past its join. T joins P at tick 2000, which is a record of P's log: A crashes and
# still has it. Each frame from the join on brings it, so B holds it with frame 3, before frames 1 and 2 have come. With
# these the horizon passes all: S gets the events of ticks 1000 and 2001, and T that of tick 2001 alone. T's filter does
# not want the event of tick 2002. To join a second time changes nothing.
clock 1000
publish P 1 {"n":5}
    logged P 1 1000
    sent 1 A B know P S1-999 D1000-1000
clock 2000
join T P
    joined T P 2000
    sent 2 A B know P joins 1 S1001-2000
crash A
    crashed A
    opened P last 1 settled 2000 cut 0
publish P 2 {"n":6}
    logged P 2 2001
    sent 3 A B know P joins 1 D2001-2001
deliver 3
deliver 1
    got S P 1000 {"n":5}
    horizon S P 1000
    horizon T P 1000
deliver 2
    got S P 2001 {"n":6}
    horizon S P 2001
    got T P 2001 {"n":6}
    horizon T P 2001
publish P 3 {"n":1}
    logged P 3 2002
    sent 4 A B know P joins 1 D2002-2002
deliver 4
    got S P 2002 {"n":1}
    horizon S P 2002
    horizon T P 2002
join T P
    already-joined T P
show
    frames 4
    log P last 3 settled 2002 cut 0 kept 3
    doubt B P 2002
