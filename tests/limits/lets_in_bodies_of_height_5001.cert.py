"""A unit under lets, one higher than a term may be."""
height = 5001
print("cert 1")
print("term " + "".join("let _%d = unit in " % number for number in range(height - 1)) + "unit")
for number in range(1, height + 1):
    print("%d t-lit [] : Unit" % number)
for level in range(1, height):
    print("%d t-let [%d %d] : Unit" % (height + level, height - level, height + level - 1))
