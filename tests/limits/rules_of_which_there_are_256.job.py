"""As many rules as there may be. The last one says what is decided."""
print("capc 1")
print("device out console")
print("put m 1")
print("def main = fun (u: Unit) => out.print(1)")
print("policy 256")
for number in range(255):
    print("deny m%d out" % number)
print("allow m out")
print("audit m.main")
