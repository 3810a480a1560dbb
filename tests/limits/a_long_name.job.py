"""Names have no greatest length but that of the text: one of 20,000 characters."""
name = "a" * 20000
print("capc 1")
print("put m 2")
print("def %s = fun (u: Unit) => u" % name)
print("def main = fun (u: Unit) => %s(u)" % name)
print("run m.main 10")
