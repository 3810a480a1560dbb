"""Lets, each the right side of the next, one higher than a term may be."""
height = 5001
print("cert 1")
print("term " + "let _0 = " * (height - 1) + "unit" + " in unit" * (height - 1))
print("1 t-lit [] : Unit")
for level in range(1, height):
    print("%d t-lit [] : Unit" % (2 * level))
    print("%d t-let [%d %d] : Unit" % (2 * level + 1, 2 * level - 1, 2 * level))
