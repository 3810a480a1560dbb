"""Prints a live run that is answered by a line of 4,194,305 bytes, with its line feed."""
print("capc 1\ndevice out console\nput m 1\ndef main = fun (u: Unit) => out.print(5)\npolicy 1\nallow * *\nlive m.main 100")
print("x" * 4194304)
print("check")
