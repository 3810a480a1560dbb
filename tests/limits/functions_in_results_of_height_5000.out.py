height = 5000
shape = "".join("(_%d: Unit) -> " % number for number in range(height - 1)) + "Unit"
print("valid " + "(%s)^{a}" % shape)
print("status 0")
