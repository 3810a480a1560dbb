"""A valid certificate of more than 4,194,304 bytes, nearly all of them binds."""
print("cert 1")
for number in range(300000):
    print("bind a%d: Unit" % number)
print("term unit")
print("1 t-lit [] : Unit")
