"""Boxes of the definition before, in two modules: behind vals of a function the type of the last one has 4,090 levels."""

print("capc 1")
print("put low 3000")
print("def b0 = 1")
for at in range(1, 3000):
    print("def b%d = box b%d" % (at, at - 1))
print("put high 1092")
print("import low.b2999")
for at in range(3000, 4090):
    print("def b%d = box b%d" % (at, at - 1))
print("def behind = fun (u: Unit) => val x = b4089; val y = x; unbox {} y")
print("check")
