# Publishers P and Q at A, and two subscribers at B: S gets one list over both publishers, and T does not.
brokers = ["A", "B"]
links = [["A", "B"]]

[[publisher]]
name = "P"
at = "A"

[[publisher]]
name = "Q"
at = "A"

[[subscriber]]
name = "S"
at = "B"
total = true

[[subscriber]]
name = "T"
at = "B"
---
# An event stands in the one list of S once S has heard both publishers up to its tick. Frame 2 comes late: S and T get
# both events of P, and the list waits for Q. With frame 2 it has the two events of tick 1000, first that of P, which is
# the first publisher. The event of tick 1500 waits until Q is heard past it, and then Q's of tick 2000 waits for P.
clock 1000
publish P 1 {"n":1}
    logged P 1 1000
    sent 1 A B know P S1-999 D1000-1000
publish Q 1 {"n":2}
    logged Q 1 1000
    sent 2 A B know Q S1-999 D1000-1000
clock 1500
publish P 2 {"n":3}
    logged P 2 1500
    sent 3 A B know P S1001-1499 D1500-1500
deliver 1
    got S P 1000 {"n":1}
    horizon S P 1000
    got T P 1000 {"n":1}
    horizon T P 1000
deliver 3
    got S P 1500 {"n":3}
    horizon S P 1500
    got T P 1500 {"n":3}
    horizon T P 1500
deliver 2
    got S Q 1000 {"n":2}
    horizon S Q 1000
    got T Q 1000 {"n":2}
    horizon T Q 1000
    ordered S P 1000 {"n":1}
    ordered S Q 1000 {"n":2}
clock 2000
publish Q 2 {"n":4}
    logged Q 2 2000
    sent 4 A B know Q S1001-1999 D2000-2000
deliver 4
    got S Q 2000 {"n":4}
    horizon S Q 2000
    got T Q 2000 {"n":4}
    horizon T Q 2000
    ordered S P 1500 {"n":3}
