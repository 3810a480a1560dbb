"""4,194,304 bytes, none of which begins a job."""
print("\0" * 4194304, end="")
