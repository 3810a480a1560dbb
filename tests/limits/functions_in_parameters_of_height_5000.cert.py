"""Functions that take functions, as high as a certificate may have them: such a variable, widened to its own type."""
from large import print_widened

height = 5000
shape = "(_0: " * (height - 1) + "Unit" + ") -> Unit" * (height - 1)
print_widened(shape, "(%s)^{a}" % shape)
