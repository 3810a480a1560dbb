height = 5000
shape = "Exit[" * (height - 1) + "Unit" + "]" * (height - 1)
print("valid " + shape + "^{a}")
print("status 0")
