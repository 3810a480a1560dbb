"""Functions that give functions, one higher than a certificate may have them."""
from large import print_widened

height = 5001
shape = "".join("(_%d: Unit) -> " % number for number in range(height - 1)) + "Unit"
print_widened(shape, "(%s)^{a}" % shape)
