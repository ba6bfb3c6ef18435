---
# The publisher's broker crashes, also in the middle of a publish. What the log has is told when it opens. Of the
# first stopped publish the record was not there yet (lost), of the second one it was (kept). Whoever publishes asks
# again with the same number: it is logged once.
clock 1000
publish P 1 {"n":1}
    logged P 1 1000
    sent 1 A B know P S1-999 D1000-1000
deliver 1
    got S P 1000 {"n":1}
    horizon S P 1000
crash A
    crashed A
    opened P last 1 settled 1000 cut 0
clock 2000
publish P 2 stop 2 pick 0 {"n":2}
    crashed A
    lost P 2 2000
    opened P last 1 settled 1000 cut 0
publish P 2 {"n":2}
    logged P 2 2000
    sent 2 A B know P S1001-1999 D2000-2000
deliver 2
    got S P 2000 {"n":2}
    horizon S P 2000
clock 3000
publish P 3 stop 4 pick 1 {"n":3}
    crashed A
    kept P 3 3000
    opened P last 3 settled 3000 cut 0
publish P 3 {"n":3}
    already P 3
clock 4100
wake B
    sent 3 B A want P A1-2000 C2001-3100
deliver 3
    sent 4 A B know P S2001-2999 D3000-3000
deliver 4
    got S P 3000 {"n":3}
    horizon S P 3000
