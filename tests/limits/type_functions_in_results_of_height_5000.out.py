height = 5000
shape = "".join("[_T%d <: Any] -> " % number for number in range(height - 1)) + "Unit"
print("valid " + "(%s)^{a}" % shape)
print("status 0")
