"""Functions whose results are functions to the results of the one before, in two modules: a variable is avoided behind
1,300 functions."""
from large import print_avoided

print_avoided(1300, "fun(u:Unit)=>t")
