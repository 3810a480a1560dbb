"""Functions whose results are boxes of the results of the one before, in five modules: a variable is avoided behind 4,000
boxes."""
from large import print_avoided

print_avoided(4000, "box t")
