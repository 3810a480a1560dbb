"""The longest text that is put."""
print("capc 1")
print("put m 2")
print("def a = 1")
print("/" * (65536 - 11))
print("sig m")
