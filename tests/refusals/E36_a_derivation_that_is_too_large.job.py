"""A sum of sums that doubles: the derivation of its definition has 114,674 nodes where it doubles 13 times, and only
100,000 are shown. A sum that doubles 3 times is shown; here nothing of it is used but that it is."""


def doubled(times):
    expression = "x"
    for _ in range(times):
        expression = "(%s + %s)" % (expression, expression)
    return expression


print("capc 1")
print("put m 2")
print("def small = fun (x: Int) => %s" % doubled(0))
print("def large = fun (x: Int) => %s" % doubled(13))
print("derive m.small")
print("derive m.large")
