"""256 modules may be present. One more of another name is refused, one of the same name takes its place."""
print("capc 1")
for number in range(257):
    print("put m%d 0" % number)
print("put m7 1")
print("def a = 7")
print("sig m7")
print("drop m0")
print("put m256 0")
