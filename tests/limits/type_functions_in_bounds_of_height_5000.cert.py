"""Type functions in bounds, as high as a certificate may have them: such a variable, widened to its own type."""
from large import print_widened

height = 5000
shape = "[_T0 <: " * (height - 1) + "Unit" + "] -> Unit" * (height - 1)
print_widened(shape, "(%s)^{a}" % shape)
