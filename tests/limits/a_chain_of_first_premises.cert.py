"""Comparisons, each the first premise of the next, under a node that is not for the term: 99,983 nodes, and the last one
is the first that is bad, since those below it have no place."""
count = 49990
print("cert 1")
print("term unit")
print("1 refl [] Unit <: Unit")
for level in range(count):
    first = 2 * level + 1
    print("%d refl [] Unit <: Unit" % (first + 1))
    print("%d tran [%d %d] Unit <: Unit" % (first + 2, first, first + 1))
first = 2 * count + 1
print("%d t-lit [] : Unit" % (first + 1))
print("%d t-let [%d %d] : Unit" % (first + 2, first, first + 1))
