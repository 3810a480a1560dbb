"""The reply to a run that says a text of 800 bytes as often as 10,000 steps allow: 2 MB, for a text of 886 bytes."""
import sys

lines = ["put guest", "run guest.main", "  authority {out}"]
lines += ["  out say " + "\U0001f600" * 200] * 2499
lines += ["  out of fuel after 10000 steps", "status 1"]
sys.stdout.buffer.write(("\n".join(lines) + "\n").encode())
