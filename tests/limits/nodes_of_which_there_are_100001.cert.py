"""One node more than there may be."""
print("cert 1")
print("term unit")
for number in range(1, 100002):
    print("%d t-lit [] : Unit" % number)
