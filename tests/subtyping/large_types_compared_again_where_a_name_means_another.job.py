"""In both branches of a choice a variable of one name, at one position, and the same two types with its set at forty
places, which are compared: whether they are below each other is another question where the variable holds the console."""
pure, printing = "fun (n: Int) => n", "fun (n: Int) => out.print(n)"


def large(members):
    return "(a: " + "(b: Unit^{%s}) -> " % members * 40 + "Unit) -> Unit"


def branch(held):
    return "(val x = %s; val f = fun (h: (g: %s) -> Unit) => fun (g: %s) => h(g); true)" % (held, large(""), large("x"))


print("capc 1")
print("device out console")
for name, first, second in (("neither", pure, pure), ("second", pure, printing), ("first", printing, pure)):
    print("put %s 3" % name)
    print("def main = fun (c: Bool) => if [Bool] c then")
    print(branch(first) + " else")
    print(branch(second))
print("check")
