height = 5000


def shape(first):
    """Functions that give functions, of the height less one, whose binders are numbered from there on."""
    return "".join("(_%d: Unit) -> " % (first + level) for level in range(height - 2)) + "Unit"


given = "(%s)^{_0}" % shape(1)

print("valid (_0: %s) -> %s" % (shape(0), given))
print("status 0")
