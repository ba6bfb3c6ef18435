# A tree with filters: publisher P at A, S below M wants prices above 80, T wants one symbol.
brokers = ["A", "M", "B", "C"]
links = [["A", "M"], ["M", "B"], ["M", "C"]]

[[publisher]]
name = "P"
at = "A"

[[subscriber]]
name = "S"
at = "B"
filter = "price > 80"

[[subscriber]]
name = "T"
at = "C"
filter = "sym = 'IBM'"
---
# Silence travels where nobody wants an event. The first event passes to B alone: C is told that nothing is there for
# it (frame 3). The second passes to both; the third to nobody, so the edge from A to M already tells silence. Each
# horizon moves all the same.
clock 1000
publish P 1 {"price":82,"sym":"ACME"}
    logged P 1 1000
    sent 1 A M know P S1-999 D1000-1000
deliver 1
    sent 2 M B know P S1-999 D1000-1000
    sent 3 M C know P S1-1000
deliver 2
    got S P 1000 {"price":82,"sym":"ACME"}
    horizon S P 1000
deliver 3
    horizon T P 1000
clock 2000
publish P 2 {"price":90,"sym":"IBM"}
    logged P 2 2000
    sent 4 A M know P S1001-1999 D2000-2000
deliver 4
    sent 5 M B know P S1001-1999 D2000-2000
    sent 6 M C know P S1001-1999 D2000-2000
deliver 5
    got S P 2000 {"price":90,"sym":"IBM"}
    horizon S P 2000
deliver 6
    got T P 2000 {"price":90,"sym":"IBM"}
    horizon T P 2000
clock 3000
publish P 3 {"price":7,"sym":"ACME"}
    logged P 3 3000
    sent 7 A M know P S2001-3000
deliver 7
    sent 8 M B know P S2001-3000
    sent 9 M C know P S2001-3000
deliver 8
    horizon S P 3000
deliver 9
    horizon T P 3000
