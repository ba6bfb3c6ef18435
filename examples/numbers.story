---
# A publisher that does not know whether a publish was logged repeats it: number 1 is logged once, and the repeat is
# answered `already`. Number 5 skips number 2 and is answered with the number that is next.
clock 1000
publish P 1 {"n":1}
    logged P 1 1000
    sent 1 A B know P S1-999 D1000-1000
publish P 1 {"n":1}
    already P 1
publish P 5 {"n":5}
    gap P 5 next 2
