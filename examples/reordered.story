---
# Frames arrive late, in the wrong order and twice. Frame 2 alone tells S nothing: ticks 1 to 1000 are still unknown.
# With frame 1 both events are received, in order. The second delivery of each frame tells nothing more.
clock 1000
publish P 1 {"n":1}
    logged P 1 1000
    sent 1 A B know P S1-999 D1000-1000
clock 2000
publish P 2 {"n":2}
    logged P 2 2000
    sent 2 A B know P S1001-1999 D2000-2000
deliver 2
deliver 1
    got S P 1000 {"n":1}
    got S P 2000 {"n":2}
    horizon S P 2000
deliver 2
deliver 1
