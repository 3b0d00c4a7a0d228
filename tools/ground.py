#!/usr/bin/env python3
"""What the program `ground` must write: python3 tools/ground.py > crates/ground/stdout

A model of the crates `number` and `table` that knows nothing of their code: a number is a Python integer, an address a text of 0s and 1s,
a row a tuple of whole numbers.
"""
LAST = 2**128 - 1
REFUSALS = 20
SIDES = (-1, 0, 1)


def bits(w, n):
    """The last w bits of n, the highest first."""
    return format(n, "b").rjust(w, "0")[-w:]


def of(edge):
    """The number of an edge, which is the exponent of a power of two and what is added to the power."""
    return 2 ** edge[0] + edge[1]


def named(edge):
    return "2^%d%s" % (edge[0], {-1: "-1", 0: "", 1: "+1"}[edge[1]])


def yes(so):
    return "yes" if so else "no"


def number(text):
    return "%x" % int(text, 2)


# numbers compared and stepped

def order(a, b):
    x, y = of(a), of(b)
    print("order", named(a), named(b), yes(x == y), yes(x < y), yes(x <= y), yes(y - x > 1))


def step(a):
    print("next", named(a), "%x" % min(of(a) + 1, LAST))


def orders():
    for k in range(128):
        low, at, high = [(k, side) for side in SIDES]
        for edge in (low, at, high):
            step(edge)
        for a, b in ((low, at), (at, at), (at, low), (low, high), ((0, -1), at)):
            order(a, b)
    step((128, -1))
    for a, b in (((128, -1), (128, -1)), ((128, -1), (0, -1)), ((0, -1), (128, -1))):
        order(a, b)


# addresses

def value(w, edge):
    text = bits(w, of(edge))
    zeros = w - len(text.rstrip("0"))
    ones = w - len(text.rstrip("1"))
    octets = [int(text[k:k + 8], 2) for k in range(0, w, 8)] + [0] * (16 - w // 8)
    print("value", w, named(edge), zeros, ones, bytes(octets).hex(), number(text))


def values(w, powers):
    for k in range(powers):
        for side in SIDES:
            value(w, (k, side))
    value(w, (128, -1))


def leftovers():
    for k in range(96, 129):
        print("leftover", named((k, -1)), number(bits(128, of((k, -1)))[:32]))


def parts():
    for octets in ([], [255] * 17, [0] * 7 + [1, 2], [128] + [0] * 7 + [1], list(range(1, 17))):
        for k in range(len(octets) + 1):
            print("spelled", k, int.from_bytes(bytes(octets[:min(k, 8)]), "big"))


# the bits that min and max keep

def row(w, edge):
    text = bits(w, of(edge))
    low = text.rstrip("0")
    high = text.rstrip("1")
    if "1" in text and "1" not in high:
        high += "1"
    print("kept", w, named(edge), len(low), number(low.ljust(w, "0")), len(high), number(high.ljust(w, "1")))


def rows(w):
    for k in range(w):
        for side in SIDES:
            row(w, (k, side))
    row(w, (w, -1))


def fill(w, first, text):
    kept = text[:first]
    print("fill", w, first, number(kept.ljust(w, "0")), number(kept.ljust(w, "1")))


def fills(w):
    pattern = "10100101" * (w // 8)
    for first in [*range(w + 1), 129, 2**32 - 1]:
        fill(w, first, pattern)
    for first in (0, 1, w):
        fill(w, first, "1" * w)


# prefixes and ranges

def shape(w, low, v, high):
    """Low is an address of w bits and high one of v; a prefix is sought among the numbers of w bits."""
    a, b = bits(w, of(low)), bits(v, of(high)).lstrip("0").rjust(w, "0")
    told = "range"
    for n in range(w + 1):
        if len(b) == w and a[:n] == b[:n] and "1" not in a[n:] and "0" not in b[n:]:
            told = "prefix %d" % n
    print("shape", w, named(low), v, named(high), told)


def pairs(w):
    for k in range(w):
        low, at, high = [(k, side) for side in SIDES]
        for a, b in ((at, at), (low, at), (at, high), ((0, -1), low), (at, (k + 1, -1))):
            shape(w, a, w, b)
    zero, last = (0, -1), (w, -1)
    for a, b in ((zero, last), ((0, 0), last), (last, last), (last, zero)):
        shape(w, a, w, b)


def mixes():
    for k in range(40):
        shape(32, (k, 0), 128, (k, 0))
        shape(128, (k, -1), 32, (k, 0))



# spaces, rows and tables

IP = set(range(1024, 1281)) | set(range(2048, 2305))
AS = {4096, 5120}
LAST32, FULL = 2**32 - 1, 2**64 - 1


def spaces():
    for space in (0, 1024, 1280, 2048, 2304, 4096, 5120, FULL):
        for s in (space - 1, space, space + 1):
            if 0 <= s <= FULL:
                print("space", s, 1 if s in IP else 2 if s in AS else 0, 128 if 2048 <= s <= 2304 else 32)


def stored():
    row = [2048, 0, 1, 0, FULL, FULL]
    for n in (0, 1, 2, FULL):
        print("put", n, *([7] * 6 * n + row + [7] * 13)[:13] if n < 2 else [7] * 13)
    run = [1, 2, 3, 4, 5, 6] + [FULL] * 6 + [13]
    for n in (0, 1, 2, FULL):
        space, mark, a, b, c, d = run[6 * n:6 * n + 6] if n < 2 else [0] * 6
        print("get", n, space, mark, "%x" % (a << 64 | b), "%x" % (c << 64 | d))
    for n in (0, 1, 12, 13, 14, FULL):
        print("clear", n, *([0] * min(n, 13) + [7] * 13)[:13])


def table(kind, run):
    """Document 01, 'The table', for a run of numbers; kind 0 takes both kinds of rows."""
    if kind > 2 or len(run) % 6 or len(run) > 3072:
        return False
    held, marks, order = {}, {}, []
    for k in range(0, len(run), 6):
        space, mark, a, b, c, d = run[k:k + 6]
        low, high = a << 64 | b, c << 64 | d
        if space not in {0: IP | AS, 1: IP, 2: AS}[kind] or mark > 1 or (mark and (low or high)):
            return False
        if low > high or high >> (128 if 2048 <= space <= 2304 else 32):
            return False
        order.append((space, low))
        marks.setdefault(space, []).append(mark)
        held.setdefault(space, []).append((low, high))
    if order != sorted(order) or any(1 in m and len(m) > 1 for m in marks.values()):
        return False
    return all(y[0] - x[1] > 1 for rows in held.values() for x, y in zip(rows, rows[1:]))


def tried(*run):
    print("table", len(run), *[yes(table(kind, run)) for kind in range(4)])


def tables():
    tried()
    tried(1024, 0, 0, 0, 0)
    tried(1024, 0, 0, 0, 0, LAST32)
    tried(1024, 0, 0, 0, 0, LAST32 + 1)
    tried(1024, 0, 0, 0, 1, 0)
    tried(1024, 0, 0, 2, 0, 1)
    tried(2048, 0, 0, 0, FULL, FULL)
    tried(2048, 0, FULL, FULL, FULL, FULL)
    tried(2048, 0, 1, 0, 0, FULL)
    tried(2048, 2, 0, 0, 0, 0)
    tried(4096, 1, 0, 0, 0, 0)
    tried(5120, 1, 0, 0, 0, 1)
    tried(5120, 1, 1, 0, 0, 0)
    tried(0, 0, 0, 0, 0, 0)
    tried(1023, 0, 0, 0, 0, 0)
    tried(1281, 1, 0, 0, 0, 0)
    tried(1024, 0, 0, 0, 0, 4, 1024, 0, 0, 5, 0, 9)
    tried(1024, 0, 0, 0, 0, 4, 1024, 0, 0, 6, 0, 9)
    tried(1024, 0, 0, 6, 0, 9, 1024, 0, 0, 0, 0, 4)
    tried(2048, 0, 0, 0, 0, FULL, 2048, 0, 1, 0, 1, 0)
    tried(2048, 0, 0, 0, 0, FULL, 2048, 0, 1, 1, 1, 1)
    tried(2048, 0, FULL, FULL, FULL, FULL, 2048, 0, 0, 0, 0, 0)
    tried(1024, 1, 0, 0, 0, 0, 1024, 0, 0, 6, 0, 9)
    tried(1024, 0, 0, 0, 0, 4, 1024, 1, 0, 0, 0, 0)
    tried(1024, 1, 0, 0, 0, 0, 1024, 1, 0, 0, 0, 0)
    tried(1024, 1, 0, 0, 0, 0, 1026, 1, 0, 0, 0, 0)
    tried(1026, 1, 0, 0, 0, 0, 1024, 1, 0, 0, 0, 0)
    tried(4096, 0, 0, 9, 0, 9, 5120, 0, 0, 9, 0, 9)
    tried(2304, 1, 0, 0, 0, 0, 4096, 0, 0, 9, 0, 9)
    tried(1024, 0, 0, 0, 0, 4, 0, 0, 0, 0, 0, 0)
    many = [n for k in range(513) for n in (4096, 0, 0, 2 * k, 0, 2 * k)]
    for length in (3071, 3072, 3078):
        tried(*many[:length])



orders()
values(32, 34)
values(128, 128)
leftovers()
parts()
rows(32)
rows(128)
fills(32)
fills(128)
pairs(32)
pairs(128)
mixes()
for n in range(REFUSALS):
    print("refusal", n + 1)
spaces()
stored()
tables()
