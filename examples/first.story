---
# An event is published at broker A and received at broker B. Frame 1 tells B that ticks 1 to 999 are silent and that
# tick 1000 has an event. Its delivery gives the event to subscriber S.
clock 1000
publish P 1 {"n":82}
    logged P 1 1000
    sent 1 A B know P S1-999 D1000-1000
deliver 1
    got S P 1000 {"n":82}
    horizon S P 1000
