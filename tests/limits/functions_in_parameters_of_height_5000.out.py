height = 5000
shape = "(_0: " * (height - 1) + "Unit" + ") -> Unit" * (height - 1)
print("valid " + "(%s)^{a}" % shape)
print("status 0")
