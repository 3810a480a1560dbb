"""The derivation of ninety-four closures, each of which calls the two before it, has more than 2^64 nodes."""
count = 94
print("capc 1")
print("put m %d" % (count + 2))
print("def main = fun (c: Console^{cap}) =>")
print("  val a1 = fun (x: Int) => c.print(x);")
print("  val a2 = fun (x: Int) => a1(x);")
for number in range(3, count + 1):
    print("  val a%d = fun (x: Int) => val w = a%d(x); a%d(x);" % (number, number - 2, number - 1))
print("  val f: ((x: Int) -> Unit)^{c} = a%d; f" % count)
print("derive m.main")
