height = 5000


def shape(first):
    """A unit in boxes, of the height less one."""
    return "Box[" * (height - 2) + "Unit" + "]" * (height - 2)


given = shape(1) + "^{_0}"

print("valid (_0: %s) -> %s" % (shape(0), given))
print("status 0")
