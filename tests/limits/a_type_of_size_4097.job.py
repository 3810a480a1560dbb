"""The type of `f` has a size of 4,097: one for itself, one for its result's, and 4,095 for its parameter's."""


def of_size(size):
    """A type of the odd size."""
    if size == 1:
        return "Int"
    left = (size - 1) // 2
    left -= 1 - left % 2
    return "(a: %s) -> %s" % (of_size(left), of_size(size - 1 - left))


print("capc 1")
print("put m 1")
print("def f = fun (x: %s) => unit" % of_size(4095))
print("check")
