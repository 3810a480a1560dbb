"""A function that gives its parameter, one higher than a term may be."""
height = 5001


def shape(first):
    """A unit in boxes, of the height less one."""
    return "Box[" * (height - 2) + "Unit" + "]" * (height - 2)


given = shape(1) + "^{_0}"

print("cert 1")
print("term fun (_0: %s) => _0" % shape(0))
print("1 t-var [] : %s" % given)
print("2 t-abs [1] : (_0: %s) -> %s" % (shape(0), given))
