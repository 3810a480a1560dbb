"""A call whose result has the height 5,000, so that its function is one too high, and names the parameter in its innermost set: the argument is put in there."""
inner = 4999
result = "Box[" * inner + "Unit^{_0}" + "]" * inner
print("cert 1")
print("bind f: (_0: Unit) -> " + result)
print("bind x: Unit")
print("term f(x)")
print("1 t-var [] : ((_0: Unit) -> %s)^{f}" % result)
print("2 t-var [] : Unit^{x}")
print("3 set [] {} <: {}")
print("4 var [3] {x} <: {}")
print("5 set [4] {x} <: {}")
print("6 refl [] Unit <: Unit")
print("7 capt [5 6] Unit^{x} <: Unit")
print("8 t-sub [2 7] : Unit")
print("9 t-app [1 8] : " + result.replace("_0", "x"))
