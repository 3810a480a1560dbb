"""Names that have one hash under the hash of the standard library's tables, whose seed is the same in each run.

That hash goes over a name of 32 bytes in two steps of sixteen: what comes of the first step is joined by xor with the next
eight bytes, and the two halves of the product of that and the last eight are joined by xor. Where those eight bytes are
what came of the first step, the product is nothing whatever the last eight are.
"""
import random

MASK = (1 << 64) - 1
SEED, MULTIPLIER = 0x243f6a8885a308d3, 0x9e3779b97f4a7c15
FIRST = 'abcdefghijklmnopqrstuvwxyzABCDEFGHIJKLMNOPQRSTUVWXYZ'
LETTERS = FIRST + '0123456789_'


def folded(one, other):
    """The halves of the product, joined by xor."""
    product = one * other
    return (product & MASK) ^ (product >> 64)


def word(name, at):
    """Eight bytes of the name as a number."""
    return int.from_bytes(name[at:at + 8], 'little')


def hashed(name):
    """The hash of a name of 32 bytes, without what marks its end."""
    first = folded(word(name, 0) ^ (SEED + len(name) & MASK), word(name, 8) ^ MULTIPLIER)
    return folded(word(name, 16) ^ first, word(name, 24) ^ MULTIPLIER)


def opening():
    """24 letters of a name, after which the hash is nothing whatever follows."""
    letters, chosen = LETTERS.encode(), random.Random(1)
    # what the first step gives is to be eight letters: of 2^64 numbers 63^8, so one of 74,000
    while True:
        name = [chosen.choice(FIRST).encode()[0]] + chosen.choices(letters, k=15)
        first = folded(word(bytes(name), 0) ^ (SEED + 32 & MASK), word(bytes(name), 8) ^ MULTIPLIER)
        eight = first.to_bytes(8, 'little')
        if all(letter in letters for letter in eight):
            return (bytes(name) + eight).decode()


def ending(number, chosen):
    """Eight letters that tell the number, behind letters that are chosen at random."""
    text = ''
    for _ in range(4):
        text, number = LETTERS[number % 63] + text, number // 63
    return ''.join(chosen.choices(LETTERS, k=4)) + text


def names_of_one_hash(count):
    """So many names of 32 bytes, all of one hash."""
    first, chosen = opening(), random.Random(2)
    names = [first + ending(number, chosen) for number in range(count)]
    assert all(hashed(name.encode()) == 0 for name in names)
    return names


def other_names(count):
    """As many of the same length, whose first letters differ, so that their hashes do."""
    chosen = random.Random(3)
    return [chosen.choice(FIRST) + ''.join(chosen.choices(LETTERS, k=27)) + ending(number, chosen)[4:]
            for number in range(count)]
