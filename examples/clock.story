---
# Ticks rise whatever the clock does: the second event takes the next tick, although the clock went back. Frame 9 was
# never sent, so its delivery is refused, with the number of its line after the separator and the count of frames sent.
clock 1000
publish P 1 {"n":1}
    logged P 1 1000
    sent 1 A B know P S1-999 D1000-1000
clock 10
publish P 2 {"n":2}
    logged P 2 1001
    sent 2 A B know P D1001-1001
deliver 9
    refused line 7 no-frame 9 of 2
