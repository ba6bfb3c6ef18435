# Brokers A, M and L in a line, publisher P at A, and no subscribers.
brokers = ["A", "M", "L"]
links = [["A", "M"], ["M", "L"]]

[[publisher]]
name = "P"
at = "A"
---
# A sweep settles everything: it wakes all brokers, delivers what they send, and in the end all that was logged is
# known, acknowledged and cut, whatever was lost and whoever crashed before.
clock 1000
publish P 1 {"n":1}
    logged P 1 1000
    sent 1 A M know P S1-1000
deliver 1
    sent 2 M L know P S1-1000
deliver 2
wake L
    sent 3 L M want P A1-1000
crash L
    crashed L
crash M
    crashed M
deliver 3
clock 2100
wake L
    sent 4 L M want P C1-1100
deliver 4
    sent 5 M L know P F1-1000
    sent 6 M A want P C1001-1100
deliver 5
sweep
    sent 7 L M want P A1-1000 C1001-3801
    sent 8 M A want P C1001-3801
    sent 9 M A want P A1-1000
    mark P 4801
    cut P 1000
    sent 10 A M know P S1001-4801
    sent 11 A M expect P 4801
    sent 12 M L know P S1001-4801
    sent 13 L M want P A1-4801
    sent 14 M A want P A1-4801
    cut P 4801
    swept 4801
show
    frames 14
    log P last 1 settled 4801 cut 4801 kept 0
    doubt L P 4801
