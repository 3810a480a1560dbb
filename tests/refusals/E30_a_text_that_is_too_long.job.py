"""A text of 65,536 bytes is put, and one of a byte more is refused: the module stays as it was."""
print("capc 1")
for length in [65536, 65537]:
    print("put m 2")
    print("def a = 1")
    print(" " * (length - 11))
print("sig m")
