"""As many nodes as there may be: a literal, and nodes that each widen it to its own type."""
print("cert 1")
print("term unit")
print("1 t-lit [] : Unit")
number = 1
while number + 4 <= 100000:
    print("%d set [] {} <: {}" % (number + 1))
    print("%d refl [] Unit <: Unit" % (number + 2))
    print("%d capt [%d %d] Unit <: Unit" % (number + 3, number + 1, number + 2))
    print("%d t-sub [%d %d] : Unit" % (number + 4, number, number + 3))
    number += 4
# Here number is 99,997: two comparisons of shapes and a bound of them are the last three nodes, so the last one breaks
# its rule.
print("%d set [] {} <: {}" % (number + 1))
print("%d refl [] Unit <: Unit" % (number + 2))
print("%d capt [%d %d %d] Unit <: Unit" % (number + 3, number, number + 1, number + 2))
