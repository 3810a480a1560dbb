"""Forty instances of one type function, more than are remembered, and then the first of them once more."""
print("capc 1")
print("put m 43")
print("def p = fun [X <: Any] => fun (x: X) => x")
print("def f = fun (u: Unit) =>")
shape = "Int"
for _ in range(40):
    shape = "Box[%s]" % shape
    print("  val a: (x: %s) -> %s = p[%s];" % (shape, shape, shape))
print("  val a: (x: Box[Int]) -> Box[Int] = p[Box[Int]]; a")
print("sig m")
