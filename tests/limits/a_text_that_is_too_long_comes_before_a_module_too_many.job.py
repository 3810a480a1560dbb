"""256 modules, and another one whose text is too long."""
print("capc 1")
for number in range(256):
    print("put m%d 0" % number)
print("put other 1")
print("/" * 65536)
print("put other 0")
