"""Functions that take functions, one higher than a certificate may have them."""
from large import print_widened

height = 5001
shape = "(_0: " * (height - 1) + "Unit" + ") -> Unit" * (height - 1)
print_widened(shape, "(%s)^{a}" % shape)
