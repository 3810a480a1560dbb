"""A function that takes and gives the shape before it has twice its size and one more. Where a shape has a size of 4,095, a
function that takes it is one of 4,097, and too large; one that takes a shape of 4,094 is not. So is what a type function gives
for a shape of 2,048, by 4,097."""


def tower(levels, shape="Int"):
    """A shape of a size of 2 to the power of the levels and one, less 1."""
    for _ in range(levels):
        shape = "(a: %s) -> %s" % (shape, shape)
    return shape


def lower(levels):
    """One of a size that is smaller by 1."""
    return "Box[Int]" if levels == 1 else "(a: %s) -> %s" % (tower(levels - 1), lower(levels - 1))


def put(name, text):
    print("put %s %d\n%s\nwhy %s" % (name, text.count("\n") + 1, text, name))


print("capc 1\ndevice out console")
put("a_function", "def f = fun (x: %s) => 1" % tower(11))
put("a_function_as_large_as_may_be", "def f = fun (x: %s) => 1" % lower(11))
put("what_a_type_function_gives", "def f = fun (g: [X <: Any] -> (x: X) -> X) =>\n  g[Box[%s]]" % tower(10))
put("what_a_type_function_gives_as_large_as_may_be", "def f = fun (g: [X <: Any] -> (x: X) -> X) => val h = g[%s]; 1" % tower(10))
put("a_variable_with_its_set", "def one = 1\ndef f = fun (x: Box[%s]) => val y = x; 1" % tower(11))
put("a_function_with_its_set", "def f = fun (u: Unit) =>\n  fun (x: %s) => val p = out.print(1); 1" % lower(11))
print("check")
