"""A text of a byte more."""
print("capc 1")
print("put m 2")
print("def a = 1")
print("/" * (65537 - 11))
print("sig m")
