"""A job of 4,194,304 bytes, whose text has 4,194,281 empty lines, and whose last line is no command."""
print("capc 1")
print("put m 4194281")
print("\n" * 4194281 + "ch", end="")
