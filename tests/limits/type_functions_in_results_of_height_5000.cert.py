"""Type functions that give type functions, as high as a certificate may have them: such a variable, widened to its own type."""
from large import print_widened

height = 5000
shape = "".join("[_T%d <: Any] -> " % number for number in range(height - 1)) + "Unit"
print_widened(shape, "(%s)^{a}" % shape)
