# A hub with a publisher, and two brokers with a subscriber each: one has a filter, the other wants everything.
brokers = ["hub", "paris", "london"]
links = [["hub", "paris"], ["hub", "london"]]

[[publisher]]
name = "trades"
at = "hub"

[[subscriber]]
name = "desk"
at = "paris"
filter = "price > 80 AND sym = 'IBM'"

[[subscriber]]
name = "audit"
at = "london"
---
# Change the topology, the filters and the events as you like: `sweep` delivers whatever is on its way.
clock 1000
publish trades 1 {"price":82,"sym":"IBM"}
    logged trades 1 1000
    sent 1 hub paris know trades S1-999 D1000-1000
    sent 2 hub london know trades S1-999 D1000-1000
publish trades 2 {"price":70,"sym":"IBM"}
    logged trades 2 1001
    sent 3 hub paris know trades S1001-1001
    sent 4 hub london know trades D1001-1001
sweep
    sent 5 paris hub want trades C1-2702
    sent 6 hub paris know trades S1-999 D1000-1000 S1001-1001
    sent 7 london hub want trades C1-2702
    sent 8 hub london know trades S1-999 D1000-1000 D1001-1001
    mark trades 3702
    sent 9 hub paris know trades S1002-3702
    sent 10 hub london know trades S1002-3702
    sent 11 hub paris expect trades 3702
    sent 12 hub london expect trades 3702
    got desk trades 1000 {"price":82,"sym":"IBM"}
    horizon desk trades 1001
    horizon desk trades 3702
    got audit trades 1000 {"price":82,"sym":"IBM"}
    got audit trades 1001 {"price":70,"sym":"IBM"}
    horizon audit trades 1001
    horizon audit trades 3702
    sent 13 paris hub want trades A1-3702
    sent 14 london hub want trades A1-3702
    cut trades 3702
    swept 3702
show
    frames 14
    log trades last 2 settled 3702 cut 3702 kept 0
    doubt paris trades 3702
    doubt london trades 3702
