"""A parameter's type that doubles eleven times has a size of 4,095: the type of the function is greater. One that
doubles ten times is accepted."""


def doubled(times):
    shape = "Int"
    for _ in range(times):
        shape = "(a: %s) -> %s" % (shape, shape)
    return shape


print("capc 1")
for name, times in [("accepted", 10), ("refused", 11)]:
    print("put %s 1" % name)
    print("def f = fun (x: %s) => unit" % doubled(times))
print("check")
