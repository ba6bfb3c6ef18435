# Publisher P at A, and subscriber S at B. A cut writes a log of 64 bytes or more anew.
brokers = ["A", "B"]
links = [["A", "B"]]

[[publisher]]
name = "P"
at = "A"

[[subscriber]]
name = "S"
at = "B"

[settings]
reclaim = 64
---
# A log is cut, and written anew. B acknowledges the first event (frame 2). At 2001 A is woken: it marks the silence since
# the second event, and cuts its log at tick 1000. The log has 111 bytes, so that is no further record: A writes what is
# past the cut, the second event and the mark, into its other lane, as generation 2. A crashes, and opens that lane. B
# asks for what it has not heard (frame 6), and gets the second event from there. Acknowledged and cut as well, it leaves
# a log of 33 bytes, generation 3, back in the first lane.
clock 1000
publish P 1 {"n":1}
    logged P 1 1000
    sent 1 A B know P S1-999 D1000-1000
deliver 1
    got S P 1000 {"n":1}
    horizon S P 1000
wake B
    sent 2 B A want P A1-1000
deliver 2
publish P 2 {"n":2}
    logged P 2 1001
    sent 3 A B know P D1001-1001
clock 2001
wake A
    mark P 2001
    cut P 1000
    reclaimed P 2
    sent 4 A B know P S1002-2001
    sent 5 A B expect P 2001
crash A
    crashed A
    opened P last 2 settled 2001 cut 1000
deliver 5
    sent 6 B A want P A1-1000 C1001-2001
deliver 6
    sent 7 A B know P D1001-1001 S1002-2001
deliver 7
    got S P 1001 {"n":2}
    horizon S P 2001
wake B
    sent 8 B A want P A1-2001
deliver 8
wake A
    cut P 2001
    reclaimed P 3
show
    frames 8
    log P last 2 settled 2001 cut 2001 kept 0
    doubt B P 2001
