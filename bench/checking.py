"""Measures the verdicts of the texts that are dearest to judge, each at its full size and at half of it.

For each it prints the processor time in milliseconds, the greatest memory in megabytes, and what each is to that of the
half. The start of the process is counted too, and memory below that of this program itself is shown as that. Where
another program is named, it prints what that takes for the full size, and how many times that the time is; the two take
turns. It fails where a verdict is another one, where a text has more than 65,536 bytes, and where the full size takes
more than the bar of its text.
Usage: checking.py PROGRAM RUNS [--beside OTHER] [WORD ..] for the texts whose names have one of the words
"""
import os
import subprocess
import sys

LIMIT = 65536


def tree_of(leaf, count):
    """So many times the expression, in a tree of `val`s that is not high."""
    text, power = '', leaf
    while count:
        if count % 2:
            text = 'val a=%s;%s' % (power, text) if text else power
        count //= 2
        power = 'val a=%s;%s' % (power, power)
    return text


def functions(takes, count, gives):
    """The type of functions that take so many parameters of a type before they give another."""
    return '(a:%s)->' % takes * count + gives


def polymorphic(outer, inner, last):
    """The type of functions from a shape `X` that take so many functions, each with so many parameters."""
    return '[X<:Any]->' + functions(functions('X', inner, 'X'), outer, last)


def names(count):
    """So many names of three characters at most, the shortest first."""
    first = 'abcdeghijklmnoqrstvwxyzABCDEFGHIJKLMNOPQRSTUVWXYZ'
    more = first + '0123456789'
    short = [a for a in first] + [a + b for a in first for b in more]
    long = [a + b + c for a in first for b in more for c in more]
    taken = [name for name in short + long if name not in ('if', 'def', 'fun', 'val', 'box', 'rec', 'out', 'log', 'cap')]
    return taken[:count]


def definitions(count):
    """So many definitions."""
    return ''.join('def %s=unit\n' % name for name in names(count))


def vals(count):
    """So many definitions of 98 `val`s inside one another."""
    return ''.join('def a%d=fun(b:Unit)=>%sb\n' % (at, 'val b=b;' * 98) for at in range(count))


def with_sets(leaf):
    """A type of size 1,985 with the set at 640 places."""
    return functions(functions('Unit^' + leaf, 20, 'Unit'), 32, 'Unit')


def to_the_left(first, second):
    """A type of size 1,841, of 80 functions, each of which takes the one before it: the sets take turns."""
    text = 'Unit'
    for _ in range(40):
        text = functions(text, 1, functions('Unit^' + first, 7, 'Unit'))
        text = functions(text, 1, functions('Unit^' + second, 7, 'Unit'))
    return text


def compared(count, below, above, given='{p}', lower='{p}', before='', upper='{cap}'):
    """So many comparisons of the two types. The sets are those of the value, of `q` and of `p`."""
    return before + 'def f=fun(p:Unit^%s)=>fun(q:Unit^%s)=>fun(g:(%s)^%s)=>fun(h:(k:(%s)^{p})->Unit)=>%s\n' % (
        upper, lower, below, given, above, tree_of('h(g)', count))


def comparisons(count):
    return compared(count, with_sets('{q}'), with_sets('{p}'))


def comparisons_beside_a_hole(count):
    return compared(count, with_sets('{q}'), with_sets('{p}'), given='?')


def comparisons_of_holes(count):
    return compared(count, with_sets('{q}'), with_sets('{p}'), lower='?')


def comparisons_to_the_left(count):
    return compared(count, to_the_left('{q}', '{p}'), to_the_left('{p}', '{q}'))


def comparisons_through_definitions(count):
    """The same, where the lower set is declared with those of 90 definitions."""
    lower = '{%s}' % ','.join(names(90))
    return compared(count, with_sets('{q}'), with_sets('{p}'), lower=lower, before=definitions(90))


def sized(leaf):
    """A type of size 1,933 with the set at 600 places."""
    return functions(functions(functions('Unit^' + leaf, 10, 'Unit'), 10, 'Unit'), 6, 'Unit')


def equal_types(count):
    """Two types that are one, and do not share their parts."""
    return compared(count, sized('{p}'), sized('{p}'))


def equal_types_beside_a_hole(count):
    return compared(count, sized('{p}'), sized('{p}'), given='?')


def apart(count):
    """Two types that are not below each other."""
    return compared(count, sized('{q}'), sized('{p}'), lower='{cap}')


def settled_through_closures(count):
    """Two types whose sets are below each other by way of 50 closures."""
    vals = 'val c0=fun(x:Int)=>p.print(x);'
    vals += ''.join('val c%d=fun(x:Int)=>c%d(x);' % (at, at - 1) for at in range(1, 50))
    return 'def f=fun(p:Console^{cap})=>%sfun(g:(%s)^{p})=>fun(h:(k:(%s)^{p})->Unit)=>%s\n' % (
        vals, sized('{p}'), sized('{c49}'), tree_of('h(g)', count))


def chains_of_holes(count):
    """Functions with omitted sets, each of which calls the one before it: so many chains of 62, the last one called with
    a device."""
    chain = 'val a=%sa;' % ('val a=fun(y:Console^?)=>a(y);' * 62)
    return 'def m=fun(u:Unit)=>val a=fun(y:Console^?)=>unit;%sa(out)\n' % (chain * count)


def closures(count):
    """So many definitions with 30 closures, of which each calls the two before it."""
    first = 'val a=fun(x:Int)=>c.print(x);val b=fun(x:Int)=>a(x);'
    pair = 'val a=fun(x:Int)=>val w=a(x);b(x);val b=fun(x:Int)=>val w=a(x);b(x);'
    text = 'def f%d=fun(c:Console^{cap})=>' + first + pair * 14 + 'val f:((x:Int)->Unit)^{c}=b;f\n'
    return ''.join(text % at for at in range(count))


def in_turn(sets, outer, inner=20):
    """A type of so many functions that each take one with so many parameters: the sets take turns."""
    text, at = '', 0
    for _ in range(outer):
        row = ''.join('(a:Unit^%s)->' % sets[(at + step) % len(sets)] for step in range(inner))
        text, at = text + '(a:%sUnit)->' % row, at + inner
    return text + 'Unit'


def kept(count, omitted, vals, sets, outer, call='f(y)'):
    """So many calls of a function, whose argument has types with these sets, which are to be below that of a device.
    They are kept, since they lead to the omitted sets of the parameters of these names."""
    parameters = ''.join('fun(%s:((x:Int)->Unit)^?)=>' % name for name in omitted)
    types = in_turn(['{out}'], outer), in_turn(sets, outer)
    return 'def m=%s%sfun(f:(y:%s)->Int)=>fun(y:%s)=>%s\n' % (parameters, vals, *types, tree_of(call, count))


def kept_through_closures(count):
    vals = ''.join('val p%d=fun(x:Int)=>h(x);' % at for at in range(40))
    return kept(count, ['h'], vals, ['{p%d}' % at for at in range(40)], 32)


def kept_within_functions(count):
    """The same, each within a function of its own."""
    vals = ''.join('val p%d=fun(x:Int)=>h(x);' % at for at in range(40))
    return kept(count, ['h'], vals, ['{p%d}' % at for at in range(40)], 32, 'fun(z:Int)=>f(y)')


def kept_behind_closures(count):
    """Two sets take turns, each of which leads to an omitted one by way of 12 closures."""
    vals = ''
    for name in 'gh':
        vals += 'val %s0=fun(x:Int)=>%s(x);' % (name, name)
        vals += ''.join('val %s%d=fun(x:Int)=>%s%d(x);' % (name, at, name, at - 1) for at in range(1, 12))
    return kept(count, 'gh', vals, ['{g11}', '{h11}'], 32)


def kept_of_omitted(count):
    """The sets of 60 parameters take turns, and each is omitted."""
    omitted = ['h%d' % at for at in range(60)]
    return kept(count, omitted, '', ['{%s}' % name for name in omitted], 16)


def kept_through_an_application(count):
    """The same with 70 omitted sets, where both types stand four times in what a type function gives."""
    omitted = ['h%d' % at for at in range(70)]
    parameters = ''.join('fun(%s:((x:Int)->Unit)^?)=>' % name for name in omitted)
    below, above = in_turn(['{%s}' % name for name in omitted], 9, 9), in_turn(['{out}'], 9, 9)
    given = functions('(%s)' % functions('X', 2, 'Unit'), 2, 'Unit')
    takes = 'fun(k:[X<:Any]->(y:%s)->Int)=>fun(g:[X<:Any]->(u:Unit)->%s)=>' % (given, given)
    return 'def m=%s%sval f=k[%s];val w=g[%s];val y=w(unit);%s\n' % (
        parameters, takes, above, below, tree_of('f(y)', count))


def comparisons_of_a_variable(count):
    """So many comparisons of a type variable with each of 288 shapes."""
    bases = ['Int', 'Unit', 'Bool', 'Str', 'Box[Int]', 'Box[Unit]', 'Box[Bool]', 'Box[Str]']
    above = ['(z:(u:%s)->(v:%s)->%s)->Int' % (one, two, last) for one in bases for two in bases for last in bases]
    types = ['', '']
    for row in range(32):
        for at, shapes in enumerate((['X'] * 9, above[row * 9:row * 9 + 9])):
            types[at] += '(a:%sUnit)->' % ''.join('(a:%s)->' % shape for shape in shapes)
    return 'def f=fun[X<:(z:Any)->Int]=>fun(g:%sUnit)=>fun(h:(k:%sUnit)->Unit)=>%s\n' % (*types, tree_of('h(g)', count))


def applications(count):
    """So many applications to a shape of size 10, each of a type of size 4,091."""
    application = 'p[%s]' % functions('Int', 4, 'Box[Int]')
    return 'def f=fun(p:%s)=>val a=%s;unit\n' % (polymorphic(53, 6, 'X'), tree_of(application, count))


def applications_to_names(count):
    """So many applications to a name, each of a type of size 4,051."""
    return 'def f=fun[Y<:Any]=>fun(p:%s)=>val a=%s;unit\n' % (polymorphic(45, 44, 'X'), tree_of('p[Y]', count))


def large_function(count=30):
    """A definition whose type has a size of 3,966, or less."""
    return 'def p=fun[X<:Any]=>fun(z:%s)=>z\n' % functions(functions('X', 32, 'X'), count, 'X')


def large_signatures(count):
    """So many definitions, of which all have such a type."""
    return large_function() + ''.join('def a%d=fun(u:Unit)=>p[Int]\n' % at for at in range(1, count))


def vals_of_large_types(count):
    """So many definitions, of which all but the first give a value of such a type through 98 `val`s."""
    text = 'def a%d=fun(u:Unit)=>val b=p[Int];%sb\n'
    return large_function() + ''.join(text % (at, 'val b=b;' * 97) for at in range(1, count))


def functions_of_large_types(count):
    """So many definitions of 96 functions around a value of such a type."""
    text = 'def a%d=fun[X<:Any]=>' + 'fun(a:X)=>' * 96 + 'p[Int]\n'
    return large_function(28) + ''.join(text % at for at in range(1, count))


def calls_of_large_types(count):
    """So many calls of a function that gives a value of such a type."""
    return large_function() + 'def f=fun(u:Unit)=>p[Int]\ndef g=fun(u:Unit)=>val a=%s;unit\n' % tree_of('f(u)', count)


def many_positions(count):
    """So many definitions of such a type, each with a parameter whose set has 49 definitions."""
    shared = names(49)
    text = 'def a%%d=fun(u:Unit^{%s})=>p[Int]\n' % ','.join(shared)
    return definitions(49) + large_function() + ''.join(text % at for at in range(1, count))


def chains_of_bounds(count, lower=''):
    """A chain of so many type parameters on each side, each of whose bounds names the one before it twice. The last two
    are compared, and in the end the lower set with the empty one."""
    text = 'def f=fun(c:Console^{cap})=>fun[X0<:(z:Int)->Int]=>fun[Y0<:Int]=>'
    for at in range(1, count + 1):
        above = '(z:Y%d%s)->Int' % (at - 1, '' if at > 1 else lower)
        text += 'fun[X%d<:(p:%s)->Int]=>' % (at, functions('X%d' % (at - 1), 2, 'Int'))
        text += 'fun[Y%d<:%s]=>' % (at, functions('(%s)' % above, 2, 'Int'))
    return text + 'fun(x:X%d)=>val r:(z:Y%d)->Int=x;unit\n' % (count, count)


def chains_of_bounds_apart(count):
    """The same where the sets are not below each other in the end."""
    return chains_of_bounds(count, '^{c}')


def chains_of_own_binders(count, lower='w', upper='%s'):
    """A chain of so many type parameters on each side, where the sets of each bound name parameters of the types that are
    compared. In the end the lower set is compared with the empty one."""
    text = 'def f=fun(c:Console^{cap})=>fun[X0<:(q:Unit)->(z:Int)->Int]=>fun[Y0<:Int]=>'
    for at in range(1, count + 1):
        takes = '(w:Unit)->X%d^{q}' % (at - 1)
        text += 'fun[X%d<:(q:Unit)->(p:%s)->Int]=>' % (at, functions(takes, 2, 'Int'))
        above = '(q:Unit)->(z:Y%d^{%s})->Int' % (at - 1, 'w' if at > 1 else lower)
        text += 'fun[Y%d<:%s]=>' % (at, functions('(w:Unit)->(%s)^{w}' % above, 2, 'Int'))
    upper = upper % ('(q:Unit)->(z:Y%d)->Int' % count)
    return text + 'fun(x:X%d)=>val r:%s=x;unit\n' % (count, upper)


def chains_of_own_binders_apart(count):
    """The same where sets are not below each other in the end."""
    return chains_of_own_binders(count, 'c')


def chains_of_own_binders_beside_a_hole(count):
    """The same beside an omitted set."""
    return chains_of_own_binders(count, upper='(%s)^?')


def chains_of_kept_demands(count, first='h', second='a', above='%s', last='%s'):
    """A chain of bounds whose sets lead to an omitted one: what is asked of it is kept."""
    text = 'def f=fun(h:((x:Int)->Unit)^?)=>fun[X0<:(z:Int)->Int]=>fun[Y0<:Int]=>'
    for at in range(1, count + 1):
        text += 'fun[X%d<:(p:(a:X%d^{%s})->(b:X%d^{%s})->Int)->Int]=>' % (at, at - 1, first, at - 1, second)
        takes = '((z:Y%d)->Int)' % (at - 1)
        text += 'fun[Y%d<:(a:%s)->(b:%s)->Int]=>' % (at, above % takes, last % takes)
    return text + 'fun(x:X%d)=>val r:(z:Y%d)->Int=x;unit\n' % (count, count)


def chains_of_kept_demands_alike(count):
    """The same, where both sets are the omitted one's."""
    return chains_of_kept_demands(count, 'h', 'h')


def chains_of_kept_demands_below_a_device(count):
    """The same, where a device is in what they are to be below."""
    return chains_of_kept_demands(count, above='%s^{out}', last='%s^{out}')


def chains_of_kept_demands_below_cap(count):
    """The same with the universal capability."""
    return chains_of_kept_demands(count, above='%s^{cap}', last='%s^{cap}')


def chains_of_kept_demands_below_own_binders(count):
    """The same with a parameter of the types that are compared."""
    return chains_of_kept_demands(count, 'h', 'h', last='%s^{a}')


def chains_of_own_parameters(count):
    """A chain of bounds of type parameters of the types that are compared."""
    text = '[X0<:(z:Int)->Int]->[Y0<:Int]->'
    for at in range(1, count + 1):
        text += '[X%d<:(p:%s)->Int]->' % (at, functions('X%d' % (at - 1), 2, 'Int'))
        text += '[Y%d<:%s]->' % (at, functions('(z:Y%d)->Int' % (at - 1), 2, 'Int'))
    return 'def f=fun(x:%s(u:Unit)->X%d)=>val r:%s(u:Unit)->(z:Y%d)->Int=x;unit\n' % (text, count, text, count)


def summed(parts):
    """The sum of the expressions, in a tree that is not high."""
    while len(parts) > 1:
        parts = ['(%s)' % '+'.join(parts[at:at + 2]) if at + 1 < len(parts) else parts[at] for at in range(0, len(parts), 2)]
    return parts[0]


def bounds_by_turns(count):
    """A chain of 68 type parameters below a large bound, of which the last eighteen are compared with it by turns, so many
    times."""
    bound = functions(functions('Unit', 14, 'Unit'), 64, 'Unit')
    chain = ''.join('fun[X%d<:X%d]=>' % (at, at - 1) for at in range(1, 68))
    turns = summed(['(val a=t[X%d];1)' % (67 - at % 18) for at in range(count)])
    return 'def t=fun[Z<:%s]=>1\ndef f=fun[X0<:%s]=>%sfun(u:Unit)=>%s\n' % (bound, bound, chain, turns)


def wanted_and_given():
    """A function that wants twelve functions, which each take fourteen parameters of a shape, and one that gives such."""
    wants = functions(functions('X', 14, 'Unit'), 12, 'Unit')
    gives = 'fun(g:%s)=>' % functions('X', 14, 'Unit') * 12
    return 'def w=fun[X<:Any]=>%sunit\ndef f=fun[X<:Any]=>fun(k:%s)=>1\n' % (gives, wants)


def pairs_by_turns(count):
    """Eighteen pairs of such types by turns, so many comparisons in all, whose sets lead through thirty closures."""
    text = wanted_and_given() + 'def m=fun(c:Unit^{cap})=>val a0=fun(x:Int)=>val y=c;x;'
    text += ''.join('val a%d=fun(x:Int)=>a%d(x);' % (at, at - 1) for at in range(1, 30))
    box = 'Box[((x:Int)->Int)^{a%d,a%d}]'
    shape = lambda at: '(z:(q:%s)->(r:%s)->Unit)->Unit' % (box % (29 - at % 27, 28 - at % 27), box % (28 - at % 27, 27 - at % 27))
    above = lambda at: shape(at).replace('}]', ',c}]')
    text += ''.join('val v%d=w[%s];val h%d=f[%s];' % (at, shape(at), at, above(at)) for at in range(18))
    return text + summed(['h%d(v%d)' % (at % 18, at % 18) for at in range(count)]) + '\n'


def a_pair_behind_definitions(count):
    """One pair of such types behind so many definitions, compared four times as often."""
    text = ''.join('def %s=1\n' % name for name in names(count + 40)[40:])
    text += 'def z=fun(x:Int)=>out.print(x)\n' + wanted_and_given() + 'def m=fun(c:Unit^{cap})=>'
    shape = lambda set: '(z:%s(r:Int)->Unit)->Unit' % ('(q:Box[((x:Int)->Unit)^{%s}])->' % set * 2)
    text += 'val v=w[%s];val h=f[%s];' % (shape('z'), shape('z,c'))
    return text + summed(['h(v)'] * (3 * count)) + '\n'


def results_by_parameter(count):
    """So many definitions of 95 calls each of a function whose large result names its parameter."""
    text = 'def t=fun[X<:Any]=>fun(y:%s)=>1\n' % functions(functions('X', 19, 'Unit'), 25, 'Unit')
    text += 'def f=fun(z:Unit^{cap})=>t[Box[Unit^{z}]]\n'
    return text + ''.join('def d%d=fun(u:Unit^{cap})=>%s1\n' % (at, 'val a=f(u);' * 95) for at in range(count))


def results_by_own_values(count):
    """So many definitions that each give a large result of a call which names a value of its own."""
    return results_by_parameter(0) + ''.join('def d%d=fun(u:Unit^{cap})=>val v=u;f(v)\n' % at for at in range(count))


def tree(height):
    """The type of functions from such a type of one level less to the same."""
    return '(a:%s)->%s' % (tree(height - 1), tree(height - 1)) if height else 'Unit'


def large_value():
    """A function that gives a value of a type of size 3,593, in which a type of size 511 stands seven times."""
    takes = ''.join('fun(%s:X)=>' % name for name in 'abcdefg')
    return 'def t=fun[X<:Any]=>%s1\ndef b=fun(u:Unit)=>t[%s]\n' % (takes, tree(8))


def each_of(count, right, head):
    """So many definitions of functions that each have this body."""
    return head + ''.join('def d%d=fun(u:Unit)=>%s\n' % (at, right) for at in range(count))


def given_again(count):
    """So many definitions that each give such a value through 95 `val`s."""
    return each_of(count, 'val a=b;' + 'val a=a;' * 94 + 'a', large_value())


def boxed_again(count):
    """So many definitions that each box such a value and take it out 46 times."""
    return each_of(count, 'val a=b;' + 'val a=box a;val a=unbox a;' * 46 + 'a', large_value())


def called_again(count):
    """So many definitions that each have 95 calls that give such a value."""
    return each_of(count, 'val a=b(u);' * 95 + 'a', large_value())


def called_again_written(count):
    """The same, where the value's type has a size of 1,025 and stands in the text."""
    return each_of(count, 'val a=f(u);' * 95 + 'a', 'def b=fun(x:%s)=>unit\ndef f=fun(u:Unit)=>b\n' % tree(9))


def avoided_at_each(count):
    """So many definitions of 94 `val`s in a row, behind which a large type names the last one, which each of them avoids."""
    head = 'def v=fun[X<:Any]=>fun(k:(y:%s)->Unit)=>unit\n' % functions(functions('X', 15, 'X'), 25, 'X')
    vals = 'val c0=c;' + ''.join('val c%d=c%d;' % (at, at - 1) for at in range(1, 94))
    return head + ''.join('def d%d=fun(c:Unit^{cap})=>%sv[Box[Unit^{c93}]]\n' % (at, vals) for at in range(count))


def all_bounds_by_turns(count):
    """A chain of forty type parameters below a large bound, which are all compared with it by turns, so many times."""
    bound = functions(functions('Unit', 14, 'Unit'), 64, 'Unit')
    chain = ''.join('fun[X%d<:X%d]=>' % (at, at - 1) for at in range(1, 40))
    turns = summed(['(val a=t[X%d];1)' % (at % 40) for at in range(count)])
    return 'def t=fun[Z<:%s]=>1\ndef f=fun[X0<:%s]=>%sfun(u:Unit)=>%s\n' % (bound, bound, chain, turns)


def instances_by_modules(count):
    """So many modules of 1,600 definitions that each give one of 24 instances of a type function, each of size 1,027 or
    more."""
    shapes = ['Int', 'Bool', 'Unit', 'Str', 'Any', 'Console', 'File', 'Counter']
    shapes = [form % shape for form in ('Box[%s]', 'Exit[%s]', 'Box[Box[%s]]') for shape in shapes]
    text = 'def t=fun[X<:Any]=>fun(y:%s)=>1\n' % functions(functions('X', 19, 'X'), 25, 'X')
    text += ''.join('def d%d=fun(u:Unit)=>t[%s]\n' % (at, shapes[at % 24]) for at in range(1600))
    return [text] * count


# Bars: so many milliseconds and so many megabytes.
CHAIN, COMPARED, KEPT, LARGE, DEAR = (50, 50), (300, 50), (400, 50), (600, 50), (1000, 200)

# Each text with its full size, how many definitions are accepted or the code of the refusal, and its bar.
TEXTS = [
    ('definitions', definitions, 5000, 5000, DEAR),
    ('a chain of bounds', chains_of_bounds, 45, 1, CHAIN),
    ('the same where sets are apart', chains_of_bounds_apart, 45, 'E15', CHAIN),
    ('a chain of bounds that name own binders', chains_of_own_binders, 45, 1, CHAIN),
    ('own binders where sets are apart', chains_of_own_binders_apart, 45, 'E15', CHAIN),
    ('own binders beside an omitted set', chains_of_own_binders_beside_a_hole, 45, 1, CHAIN),
    ('a chain of bounds of own parameters', chains_of_own_parameters, 45, 1, CHAIN),
    ('a chain of bounds with kept demands', chains_of_kept_demands, 45, 1, CHAIN),
    ('the same with one kept demand', chains_of_kept_demands_alike, 45, 1, CHAIN),
    ('kept demands with a device on the right', chains_of_kept_demands_below_a_device, 45, 1, CHAIN),
    ('kept demands with cap on the right', chains_of_kept_demands_below_cap, 45, 1, CHAIN),
    ('kept demands with own binders on the right', chains_of_kept_demands_below_own_binders, 45, 1, CHAIN),
    ('98 vals inside one another', vals, 80, 80, DEAR),
    ('comparisons of types of size 1,985', comparisons, 4200, 1, COMPARED),
    ('the same beside an omitted set', comparisons_beside_a_hole, 4200, 1, COMPARED),
    ('the same where one set is omitted', comparisons_of_holes, 4200, 1, COMPARED),
    ('comparisons of types nested to the left', comparisons_to_the_left, 4200, 1, COMPARED),
    ('comparisons through 90 definitions', comparisons_through_definitions, 4000, 91, COMPARED),
    ('equal types of size 1,933', equal_types, 4200, 1, COMPARED),
    ('equal types beside an omitted set', equal_types_beside_a_hole, 4200, 1, COMPARED),
    ('types of this size that are apart', apart, 4200, 'E15', LARGE),
    ('types below each other by 50 closures', settled_through_closures, 4000, 1, LARGE),
    ('comparisons of a variable with 288 shapes', comparisons_of_a_variable, 2800, 1, COMPARED),
    ('kept comparisons of 40 closures', kept_through_closures, 3600, 1, KEPT),
    ('the same, each within a function', kept_within_functions, 1800, 1, KEPT),
    ('kept comparisons behind 12 closures each', kept_behind_closures, 3600, 1, KEPT),
    ('kept comparisons of 60 omitted sets', kept_of_omitted, 4800, 1, KEPT),
    ('the same of 70, four times in what is given', kept_through_an_application, 4800, 1, KEPT),
    ('chains of 62 omitted sets', chains_of_holes, 32, 1, DEAR),
    ('definitions of 30 closures', closures, 60, 60, DEAR),
    ('type applications to a shape', applications, 1160, 1, DEAR),
    ('type applications to a name', applications_to_names, 4600, 1, DEAR),
    ('large signatures', large_signatures, 1980, 1980, DEAR),
    ('98 vals of large types', vals_of_large_types, 72, 72, DEAR),
    ('96 functions of large types', functions_of_large_types, 60, 60, DEAR),
    ('calls of large types', calls_of_large_types, 5200, 3, DEAR),
    ('large types of many positions', many_positions, 450, 499, DEAR),
    ('68 bounds of one large type by turns', bounds_by_turns, 2200, 2, (150, 50)),
    ('eighteen pairs of large types by turns', pairs_by_turns, 5800, 3, DEAR),
    ('a pair of large types behind definitions', a_pair_behind_definitions, 2050, 2054, DEAR),
    ('large results that name a parameter', results_by_parameter, 56, 58, DEAR),
    ('large results that name own values', results_by_own_values, 1480, 1482, (1000, 300)),
    ('40 bounds of one large type by turns', all_bounds_by_turns, 2200, 2, (100, 50)),
    ('values of a large type given again', given_again, 80, 82, DEAR),
    ('values of a large type boxed again', boxed_again, 50, 52, DEAR),
    ('calls that give such values', called_again, 58, 60, DEAR),
    ('the same of a type that stands in the text', called_again_written, 52, 54, DEAR),
    ('a large type avoided at each val', avoided_at_each, 45, 46, DEAR),
    ('modules of large instances', instances_by_modules, 4, 1601, None),
]


def used(program, texts, want):
    """The processor time in seconds and the greatest memory in megabytes of one job that puts and checks the texts."""
    devices = 'device out console\ndevice hits counter\ndevice log file\n'
    puts = ''.join('put m%s %d\n%s' % (at or '', text.count('\n'), text) for at, text in enumerate(texts))
    job = subprocess.Popen([program], stdin=subprocess.PIPE, stdout=subprocess.PIPE, stderr=subprocess.STDOUT)
    job.stdin.write(('capc 1\n%s%scheck\n' % (devices, puts)).encode())
    job.stdin.close()
    output = job.stdout.read()
    _, _, usage = os.wait4(job.pid, 0)
    if b'\n  m %s' % want.encode() not in output:
        sys.exit('bench/checking.py: not %s: %r' % (want, output[:200]))
    return usage.ru_utime + usage.ru_stime, usage.ru_maxrss / 1024


def measured(words, make, count, accepted, programs):
    """The shortest time and the greatest memory of each program on the text, or the texts, of so many, and their size."""
    texts = make(count)
    texts = [texts] if isinstance(texts, str) else texts
    if max(map(len, texts)) > LIMIT:
        sys.exit('bench/checking.py: %s: a text of %d bytes' % (words, max(map(len, texts))))
    want = accepted + ' 1:' if isinstance(accepted, str) else 'ok\n'
    runs = [[used(each, texts, want) for each in programs] for _ in range(int(times))]
    return [(min(time for time, _ in one), max(memory for _, memory in one)) for one in zip(*runs)], sum(map(len, texts))


program, times, wanted, programs = sys.argv[1], sys.argv[2], sys.argv[3:], sys.argv[1:2]
if wanted[:1] == ['--beside']:
    programs, wanted = [program, wanted[1]], wanted[2:]
dear = []
print('%-42s %6s %6s %9s %5s %8s %5s' % ('text', 'count', 'bytes', 'ms', 'ratio', 'MB', 'ratio'))
for words, make, count, accepted, bar in TEXTS:
    if wanted and not any(word in words for word in wanted):
        continue
    half = count // 2
    each = isinstance(accepted, int) and accepted >= count
    rest = accepted - count if each else 0
    ((time, memory), *others), size = measured(words, make, count, accepted, programs)
    ((half_time, half_memory),), _ = measured(words, make, half, half + rest if each else accepted, programs[:1])
    beside = ''.join('  %.2f times %.1f ms, %.0f MB' % (time / other, other * 1000, much) for other, much in others)
    print('%-42s %6d %6d %9.1f %5.2f %8.1f %5.2f%s' % (
        words, count, size, time * 1000, time / half_time, memory, memory / half_memory, beside), flush=True)
    if bar and (time * 1000 > bar[0] or memory > bar[1]):
        dear.append('%s (more than %d ms or %d MB)' % (words, *bar))
if dear:
    sys.exit('bench/checking.py: too dear: ' + '; '.join(dear))
