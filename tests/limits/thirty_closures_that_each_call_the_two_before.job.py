"""What is asked of sets is not asked again for each chain of closures: there are more than a million of them."""
print("capc 1")
print("put m 33")
print("def main = fun (c: Console^{cap}) =>")
print("  val a1 = fun (x: Int) => c.print(x);")
print("  val a2 = fun (x: Int) => a1(x);")
for number in range(3, 31):
    print("  val a%d = fun (x: Int) => val w = a%d(x); a%d(x);" % (number, number - 2, number - 1))
print("  val f: ((x: Int) -> Unit)^{c} = a30;")
print("  f")
print("sig m")
