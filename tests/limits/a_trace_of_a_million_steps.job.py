"""A run that ticks all along, replayed with all its fuel: 199,999 ticks, each in five steps behind the first four."""
ticks = (1000000 - 4 - 3) // 5 + 1
print("capc 1")
print("device hits counter")
print("put m 1")
print("def main = fun (u: Unit) => repeat(200000, fun (i: Int) => val n = hits.tick(); unit)")
print("replay m.main 1000000 %d" % (ticks + 1))
for number in range(1, ticks + 1):
    print("hits tick %d" % number)
print("out of fuel after 1000000 steps")
