"""Functions that give functions, as high as a certificate may have them: such a variable, widened to its own type."""
from large import print_widened

height = 5000
shape = "".join("(_%d: Unit) -> " % number for number in range(height - 1)) + "Unit"
print_widened(shape, "(%s)^{a}" % shape)
