"""256 rules as the policy says, and one more, which is no command."""
print("capc 1")
print("policy 256")
for number in range(257):
    print("deny m%d out" % number)
