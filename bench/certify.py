"""Measures certificates that are dear to read or to judge, each at its full size and at half of it.

For each it prints the processor's time of `certify` in milliseconds at half the size and at the full one, the start of
the process among it, what the one is to the other, and the greatest memory in megabytes. Binds whose names have one hash
stand beside as many others. It fails where an answer is another one, where a full size takes more than its bar, and where
names of one hash take more than one and a half times as long as others. All run on a stack of 512 KB.
Usage: certify.py PROGRAM RUNS [WORD ..] for those whose names have one of the words
"""
import resource
import sys

import hashing
import measuring

program, runs, words = sys.argv[1], int(sys.argv[2]), sys.argv[3:]
failed = False
# All of them are judged on a stack of 512 KB.
resource.setrlimit(resource.RLIMIT_STACK, (512 << 10, resource.getrlimit(resource.RLIMIT_STACK)[1]))

UNIT = 'term unit\n1 t-lit [] : Unit\n'


def binds(count):
    """The opening, and so many binds."""
    return 'cert 1\n' + ''.join('bind a%d: Unit\n' % k for k in range(count))


def set_of(names):
    return '{%s}' % ', '.join(names)


def all_of(count):
    """The set of so many binds."""
    return set_of('a%d' % k for k in range(count))


def many_binds(count):
    return binds(count) + UNIT


def binds_of(names):
    """A bind of each name."""
    return 'cert 1\n' + ''.join('bind %s: Unit\n' % name for name in names) + UNIT


def one_set(count):
    """A bind with a set of so many names."""
    return binds(count) + 'bind b: Unit^%s\n' % all_of(count) + UNIT


def unboxed(count):
    """What is taken out of a box has a set of so many names."""
    names = all_of(count)
    return (binds(count) + 'bind b: Box[Unit^%s]\nterm unbox %s b\n1 t-var [] : Box[Unit^%s]^{b}\n' % (names, names, names)
            + '2 t-unbox [1] : Unit^%s\n' % names)


def names_apart(count):
    """A claim with a set of so many local names, each in another word. None of them is in scope."""
    return 'cert 1\nterm unit\n1 elem [] %s <: {}\n' % set_of('_%d' % (64 * k) for k in range(count))


def set_without_premises(count):
    """A set of so many names below another, with no premise."""
    return binds(count) + 'term unit\n1 set [] %s <: {}\n' % all_of(count)


def sets_under_binders(count):
    """A type under so many binders, and half as many sets of the others below them."""
    outer = count // 2
    names = set_of('_%d' % k for k in range(outer))
    return ('cert 1\nbind b: %s' % ''.join('(_%d: Unit) -> ' % k for k in range(outer))
            + 'Box[Unit^%s]\n' % names + UNIT)


def lets_in_bodies(count):
    """A unit under so many lets."""
    text = 'cert 1\nterm %sunit\n' % ''.join('let _%d = unit in ' % k for k in range(count))
    text += ''.join('%d t-lit [] : Unit\n' % k for k in range(1, count + 2))
    return text + ''.join('%d t-let [%d %d] : Unit\n' % (count + 1 + k, count + 1 - k, count + k)
                          for k in range(1, count + 1))


def lets_with_types(count):
    """The same with a type at each let."""
    return lets_in_bodies(count).replace(' = ', ': Unit = ')


def lets_of_the_first(count):
    """The same where each but the first names the first variable."""
    text = 'cert 1\nterm let _0 = unit in %sunit\n' % ''.join('let _%d = _0 in ' % k for k in range(1, count))
    lines = ['1 t-lit [] : Unit'] + ['%d t-var [] : Unit^{_0}' % k for k in range(2, count + 1)]
    lines.append('%d t-lit [] : Unit' % (count + 1))
    lines += ['%d t-let [%d %d] : Unit' % (count + 1 + k, count + 1 - k, count + k) for k in range(1, count + 1)]
    return text + '\n'.join(lines) + '\n'


def tree_under_lets(count):
    """So many variables in a low tree of lets under 4,900 lets. All of them name the first variable."""
    nodes = []

    def node(rule, premises, type):
        nodes.append('%d %s [%s] : %s' % (len(nodes) + 1, rule, ' '.join(map(str, premises)), type))
        return len(nodes)

    def tree(size, locals):
        if size == 1:
            return '_0', node('t-var', [], 'Unit^{_0}')
        right, first = tree(size // 2, locals)
        body, second = tree(size - size // 2, locals + 1)
        return 'let _%d = %s in %s' % (locals, right, body), node('t-let', [first, second], 'Unit^{_0}')

    rights = [node('t-var', [], 'Unit^{_0}') for _ in range(4900)]
    inner, last = tree(count, 4901)
    for right in reversed(rights):
        last = node('t-let', [right, last], 'Unit^{_0}')
    node('t-abs', [last], '(_0: Unit) -> Unit^{_0}')
    lets = ''.join('let _%d = _0 in ' % k for k in range(1, 4901))
    return '\n'.join(['cert 1', 'term fun (_0: Unit) => ' + lets + inner] + nodes) + '\n'


def functions_in_bodies(count):
    """So many functions around a unit, each widened to the greatest shape."""
    lines = ['cert 1', 'term %sunit' % ''.join('fun (_%d: Unit) => ' % k for k in range(count)), '1 t-lit [] : Unit',
             '2 set [] {} <: {}', '3 top [] Unit <: Any', '4 capt [2 3] Unit <: Any', '5 t-sub [1 4] : Any']
    for k in range(1, count + 1):
        at, type = 5 * k, '(_%d: Unit) -> Any' % (count - k)
        lines += ['%d t-abs [%d] : %s' % (at + 1, at, type), '%d set [] {} <: {}' % (at + 2),
                  '%d top [] %s <: Any' % (at + 3, type), '%d capt [%d %d] %s <: Any' % (at + 4, at + 2, at + 3, type),
                  '%d t-sub [%d %d] : Any' % (at + 5, at + 1, at + 4)]
    return '\n'.join(lines) + '\n'


def sum_of(count):
    """What is derived of a function that adds its argument up so many times, a power of two, by sums of equal sums."""
    nodes = []

    def node(rule, premises, claim):
        nodes.append('%d %s [%s] %s' % (len(nodes) + 1, rule, ' '.join(map(str, premises)), claim))
        return len(nodes)

    def operand(local):
        variable, type = '{_%d}' % local, 'Int^{_%d}' % local
        name = node('t-var', [], ': ' + type)
        below = node('set', [node('elem', [], variable + ' <: ' + variable)], variable + ' <: ' + variable)
        types = node('capt', [below, node('refl', [], 'Int <: Int')], type + ' <: ' + type)
        return node('t-sub', [name, types], ': ' + type)

    def added(left, right):
        return node('t-prim', [operand(left), operand(right)], ': Int')

    def derived(size, local):
        if size == 2:
            return added(0, 0)
        left = derived(size // 2, local)
        right = derived(size // 2, local + 1)
        inner = node('t-let', [right, added(local, local + 1)], ': Int')
        return node('t-let', [left, inner], ': Int')

    def written(size, local):
        if size == 2:
            return '_0 + _0'
        return 'let _%d = %s in let _%d = %s in _%d + _%d' % (
            local, written(size // 2, local), local + 1, written(size // 2, local + 1), local, local + 1)

    node('t-abs', [derived(count, 1)], ': (_0: Int) -> Int')
    return '\n'.join(['cert 1', 'term fun (_0: Int) => ' + written(count, 1)] + nodes) + '\n'


def measured(text, wanted):
    """The time and the memory for a certificate, which has to get the answer."""
    global failed
    best, most, _, line = measuring.measured(program, text, runs)
    if line != wanted:
        print('another answer:', line[:80])
        failed = True
    return best, most


def shown(name, make, count, answer, bar):
    """One row, where its name has one of the words. The answer depends on the size."""
    global failed
    if words and not any(word in name for word in words):
        return
    less, _ = measured(make(count // 2), answer(count // 2))
    text = make(count)
    more, most = measured(text, answer(count))
    print('%-40s %8d bytes %7.0f %7.0f ms  %5.1f  %5.0f MB' % (name, len(text), less, more, more / max(less, 1), most))
    if more > bar:
        print('  more than %d ms' % bar)
        failed = True


def beside(name, count):
    """One row of binds whose names have one hash, beside as many others, which take turns."""
    global failed
    if words and not any(word in name for word in words):
        return
    texts, best = [binds_of(names(count)) for names in (hashing.names_of_one_hash, hashing.other_names)], [None, None]
    for _ in range(runs):
        for at, text in enumerate(texts):
            took, most, _, line = measuring.measured(program, text, 1)
            best[at] = took if best[at] is None else min(best[at], took)
            if line != 'valid Unit':
                print('another answer:', line[:80])
                failed = True
    print('%-40s %8d bytes         %7.0f ms  %5.2f times other names  %5.0f MB'
          % (name, len(texts[0]), best[0], best[0] / best[1], most))
    if best[0] > 1.5 * best[1]:
        print('  more than 1.5 times')
        failed = True


def always(line):
    return lambda count: line


shown('40,000 binds', many_binds, 40000, always('valid Unit'), 300)
shown('130,000 binds', many_binds, 130000, always('valid Unit'), 600)
shown('4 MiB of binds', many_binds, 226000, always('valid Unit'), 1000)
beside('24,000 binds of one hash', 24000)
beside('4 MiB of binds of one hash', 95000)
shown('a set of 40,000 names', one_set, 40000, always('valid Unit'), 300)
shown('40,000 names in four sets', unboxed, 40000, lambda count: 'valid Unit^' + all_of(count), 300)
shown('40,000 names below nothing', set_without_premises, 40000, always('bad node 1'), 300)
shown('57,330 nodes, a sum of 4,096', sum_of, 4096, always('valid (_0: Int) -> Int'), 200)
shown('80,000 local names far apart', names_apart, 80000, always('bad node 1'), 200)
shown('4 MiB of local names far apart', names_apart, 380000, always('bad node 1'), 500)
shown('5,000 lets, each in the body of one', lets_in_bodies, 4999, always('valid Unit'), 300)
shown('5,000 lets with their types', lets_with_types, 4999, always('valid Unit'), 300)
shown('5,000 functions, each in the body of one', functions_in_bodies, 4999, always('valid Any'), 300)
shown('16,000 variables under 4,900 lets', tree_under_lets, 16000, always('valid (_0: Unit) -> Unit^{_0}'), 300)
shown('5,000 lets of the first variable', lets_of_the_first, 4999, always('valid Unit'), 300)
shown('sets under 4,900 binders', sets_under_binders, 4900, always('valid Unit'), 300)
sys.exit(1 if failed else 0)
