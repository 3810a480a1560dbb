"""A function that gives its parameter, one higher than a term may be."""
height = 5001


def shape(first):
    """Functions that give functions, of the height less one, whose binders are numbered from there on."""
    return "".join("(_%d: Unit) -> " % (first + level) for level in range(height - 2)) + "Unit"


given = "(%s)^{_0}" % shape(1)

print("cert 1")
print("term fun (_0: %s) => _0" % shape(0))
print("1 t-var [] : %s" % given)
print("2 t-abs [1] : (_0: %s) -> %s" % (shape(0), given))
