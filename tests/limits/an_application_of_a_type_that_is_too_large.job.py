"""A function from shapes is applied to a shape of size 16: the application has a type of a size above 4,096."""


def functions(takes, count, gives):
    """The type of functions that take so many parameters of a type before they give another."""
    return "(a: %s) -> " % takes * count + gives


function = "[X <: Any] -> " + functions(functions("X", 5, "X"), 40, "Box[X]")
print("capc 1")
print("put m 2")
print("def f = fun (p: %s) => val a =" % function)
print("  p[%s]; unit" % functions("Int", 7, "Box[Int]"))
print("check")
