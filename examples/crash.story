# Publisher P at A, subscriber S at B, and broker M between them.
brokers = ["A", "M", "B"]
links = [["A", "M"], ["M", "B"]]

[[publisher]]
name = "P"
at = "A"

[[subscriber]]
name = "S"
at = "B"
---
# A broker between loses all that it knew. Frame 2 is not delivered before M crashes. B asks (frame 3), M knows
# nothing any more and asks A (frame 4), A answers from its log (frame 5), and M passes it on (frame 6). Frame 2 comes
# late and tells nothing new.
clock 1000
publish P 1 {"n":1}
    logged P 1 1000
    sent 1 A M know P S1-999 D1000-1000
deliver 1
    sent 2 M B know P S1-999 D1000-1000
crash M
    crashed M
clock 2100
wake B
    sent 3 B M want P C1-1100
deliver 3
    sent 4 M A want P C1-1100
deliver 4
    sent 5 A M know P S1-999 D1000-1000
deliver 5
    sent 6 M B know P S1-999 D1000-1000
deliver 6
    got S P 1000 {"n":1}
    horizon S P 1000
deliver 2
