"""One rule more than there may be, said by the policy's number."""
print("capc 1")
print("policy 257")
for number in range(257):
    print("deny m%d out" % number)
