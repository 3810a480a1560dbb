"""Functions in bodies of functions, one higher than a term may be."""
height = 5001
print("cert 1")
print("term " + "".join("fun (_%d: Unit) => " % number for number in range(height - 1)) + "unit")
print("1 t-lit [] : Unit")
print("2 set [] {} <: {}")
print("3 top [] Unit <: Any")
print("4 capt [2 3] Unit <: Any")
print("5 t-sub [1 4] : Any")
for level in range(1, height):
    first = 5 * level
    shape = "(_%d: Unit) -> Any" % (height - 1 - level)
    print("%d t-abs [%d] : %s" % (first + 1, first, shape))
    print("%d set [] {} <: {}" % (first + 2))
    print("%d top [] %s <: Any" % (first + 3, shape))
    print("%d capt [%d %d] %s <: Any" % (first + 4, first + 2, first + 3, shape))
    print("%d t-sub [%d %d] : Any" % (first + 5, first + 1, first + 4))
