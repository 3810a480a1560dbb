print("valid " + "Box[" * 4998 + "Unit^{x}" + "]" * 4998)
print("status 0")
