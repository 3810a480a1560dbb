"""A literal with all nodes before it as its premises: none of them has a place, and so it is the first that is bad."""
print("cert 1")
print("term unit")
for number in range(1, 100000):
    print("%d t-lit [] : Unit" % number)
print("100000 t-lit [%s] : Unit" % " ".join(str(number) for number in range(1, 100000)))
