"""A job of 4,194,305 bytes."""
print("capc 1\n" + "\n" * (4194305 - 7), end="")
