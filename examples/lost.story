---
# A lost frame is asked for again. Frame 1 never arrives. Broker B, woken, knows of a later tick, so it asks for the
# ticks before it (frame 3), and broker A answers from its log (frame 4). Subscriber S gets both events, in order.
clock 1000
publish P 1 {"n":1}
    logged P 1 1000
    sent 1 A B know P S1-999 D1000-1000
clock 2000
publish P 2 {"n":2}
    logged P 2 2000
    sent 2 A B know P S1001-1999 D2000-2000
deliver 2
wake B
    sent 3 B A want P C1-1000
deliver 3
    sent 4 A B know P S1-999 D1000-1000
deliver 4
    got S P 1000 {"n":1}
    got S P 2000 {"n":2}
    horizon S P 2000
