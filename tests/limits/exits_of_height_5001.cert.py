"""Exits of exits, one higher than a certificate may have them."""
from large import print_widened

height = 5001
shape = "Exit[" * (height - 1) + "Unit" + "]" * (height - 1)
print_widened(shape, shape + "^{a}")
