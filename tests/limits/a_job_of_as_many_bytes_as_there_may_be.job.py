"""A job of 4,194,304 bytes: the first line, and empty ones."""
print("capc 1\n" + "\n" * (4194304 - 7), end="")
