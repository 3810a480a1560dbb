"""Boxes in boxes, as high as a certificate may have them: such a variable, widened to its own type."""
from large import print_widened

height = 5000
shape = "Box[" * (height - 1) + "Unit" + "]" * (height - 1)
print_widened(shape, shape + "^{a}")
