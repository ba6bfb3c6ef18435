# Publisher P at A, and below it B and C with a subscriber each.
brokers = ["A", "B", "C"]
links = [["A", "B"], ["A", "C"]]

[[publisher]]
name = "P"
at = "A"

[[subscriber]]
name = "S"
at = "B"

[[subscriber]]
name = "T"
at = "C"
---
# The log is cut only where everyone has acknowledged. B acknowledges (frame 3); woken, A tells C to expect all up to
# tick 1000 (frame 4), since C has not. C acknowledges (frame 5), and then A cuts its log. Frame 4 is shown in its
# bytes.
clock 1000
publish P 1 {"n":1}
    logged P 1 1000
    sent 1 A B know P S1-999 D1000-1000
    sent 2 A C know P S1-999 D1000-1000
deliver 1
    got S P 1000 {"n":1}
    horizon S P 1000
deliver 2
    got T P 1000 {"n":1}
    horizon T P 1000
wake B
    sent 3 B A want P A1-1000
deliver 3
wake A
    sent 4 A C expect P 1000
wake C
    sent 5 C A want P A1-1000
deliver 5
wake A
    cut P 1000
show
    frames 5
    log P last 1 settled 1000 cut 1000 kept 0
    doubt B P 1000
    doubt C P 1000
bytes 4
    bytes 4 474b0103000000020000000100000000000003e8
