"""Large jobs and certificates, for the scripts that print tests."""


def print_widened(shape, widened):
    """The certificate of a variable of the shape, widened to the type that it has: the shape with the variable's set."""
    print("cert 1")
    print("bind a: " + shape)
    print("term a")
    print("1 t-var [] : " + widened)
    print("2 elem [] {a} <: {a}")
    print("3 set [2] {a} <: {a}")
    print("4 refl [] %s <: %s" % (shape, shape))
    print("5 capt [3 4] %s <: %s" % (widened, widened))
    print("6 t-sub [1 5] : " + widened)


def print_avoided(levels, result):
    """The job of functions, each of which gives what this makes of `t`, what the one before it gives, in modules of 900
    definitions: where the last one is applied to a variable that goes out of scope, this is avoided behind so many levels."""
    takes = "(y: ((u: Unit) -> Unit)^{cap})"
    definitions = ["def f0 = fun %s => y" % takes]
    for at in range(1, levels + 1):
        definitions.append("def f%d=fun(y:((u:Unit)->Unit)^{cap})=>val t=f%d(y);%s" % (at, at - 1, result))
    definitions.append("def behind = fun %s => val x = fun (u: Unit) => y(u); val r = f%d(x); r" % (takes, levels))
    each = 900
    print("capc 1")
    for number, start in enumerate(range(0, len(definitions), each)):
        lines = definitions[start : start + each]
        if number > 0:
            lines.insert(0, "import m%d.f%d" % (number - 1, start - 1))
        print("put m%d %d" % (number, len(lines)))
        print("\n".join(lines))
    print("check")
