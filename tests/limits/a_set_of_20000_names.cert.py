"""A set of many names, whose order is looked at in one pass."""
count = 20000
print("cert 1")
for number in range(count):
    print("bind a%d: Unit" % number)
names = ", ".join("a%d" % number for number in range(count))
print("bind b: Unit^{%s}" % names)
print("term b")
print("1 t-var [] : Unit^{b}")
