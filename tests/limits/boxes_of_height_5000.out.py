height = 5000
shape = "Box[" * (height - 1) + "Unit" + "]" * (height - 1)
print("valid " + shape + "^{a}")
print("status 0")
