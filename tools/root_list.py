#!/usr/bin/env python3
"""Writes crates/root_list/stdin and stdout: bit patterns of doubles, and the patterns of their roots by the machine's own root.

usage, from the repository's root:  tools/root_list.py [--figures]
Each root of a positive finite double is also worked out over whole numbers, and the script fails where the two differ. --figures prints the
entries of the table in crates/root/proofs/Figures.antt instead.
"""
import math, os, random, struct, sys

if sys.argv[1:] in (['-h'], ['--help']):
    print(__doc__)
    sys.exit()
if sys.argv[1:] not in ([], ['--figures']):
    sys.exit(f'{sys.argv[0]}: no such argument; --help says what it takes')
if not os.path.isdir('crates/root_list'):
    sys.exit(f"{sys.argv[0]}: there is no crates/root_list here; run it from the repository's root")

NAN, INFINITY, SIGN, FIELD = 0x7FF8000000000000, 0x7FF0000000000000, 1 << 63, 1 << 52


def double(b):
    return struct.unpack('>d', struct.pack('>Q', b))[0]


def bits(x):
    return NAN if x != x else struct.unpack('>Q', struct.pack('>d', x))[0]


def magnitude(b):
    """The number of a pattern in units of 2 ^ -1074 (IEEE 754, 3.4)."""
    e, t = divmod(b, FIELD)
    return t if e == 0 else (FIELD + t) << (e - 1)


def nearest(b):
    """The root's pattern by whole numbers: the largest one at most the root, or the next, by the midpoint's square."""
    n = magnitude(b) << 1074
    w = math.isqrt(n)
    k = max(w.bit_length() - 53, 0)
    q = w >> k
    r = k * FIELD + q
    middle = magnitude(r) + magnitude(r + 1)
    if middle * middle == 4 * n:
        sys.exit(f'{b:016x}: a tie, which cannot be')
    return r + 1 if middle * middle < 4 * n else r


def root(b):
    x = double(b)
    if x != x or x < 0:
        return NAN
    r = bits(math.sqrt(x))
    if 0 < b < INFINITY and r != nearest(b):
        sys.exit(f'{b:016x}: the machine gives {r:016x}, whole numbers give {nearest(b):016x}')
    return r


def around(b, d=1):
    return [c for c in range(b - d, b + d + 1) if 0 <= c <= INFINITY]


def near_square(r):
    """The double nearest to the square of the pattern r, and those beside it."""
    y = double(r) * double(r)
    return around(bits(y)) if y == y and y > 0 else []


def near_middle(r):
    """Doubles around the square of the midpoint from r to the next pattern: there the rounding turns."""
    n = (magnitude(r) + magnitude(r + 1)) ** 2
    m = n >> 1076
    if m == 0 or m.bit_length() > 2098:
        return []
    k = max(m.bit_length() - 53, 0)
    return around(k * FIELD + (m >> k), 2)


def patterns():
    rng = random.Random(754)
    yield from [0, SIGN, INFINITY, SIGN | INFINITY, 1, 2, 3, 4, FIELD - 1, FIELD, FIELD + 1, INFINITY - 1, SIGN | 1, SIGN | FIELD, SIGN | (INFINITY - 1)]
    yield from [NAN, NAN | SIGN, INFINITY | 1, INFINITY | (FIELD - 1), SIGN | INFINITY | 1, (1 << 64) - 1]
    for e in range(2047):
        yield e * FIELD + rng.randrange(FIELD)
    for i in range(52):
        yield from around(1 << i)
        yield rng.randrange(1 << i, 2 << i)
    for n in list(range(1, 200)) + [rng.randrange(1 << 26) for _ in range(100)]:
        yield from around(bits(float(n * n)))
    for _ in range(400):
        yield from near_square(rng.randrange(485 * FIELD, 1535 * FIELD))
    for _ in range(400):
        yield from near_middle(rng.randrange(486 * FIELD, 1534 * FIELD))
    for e in range(486, 1534, 13):
        yield from near_square(e * FIELD)
        yield from near_middle(e * FIELD)
        yield from near_middle(e * FIELD - 1)
    for _ in range(100):
        yield SIGN | rng.randrange(1, INFINITY)


FIGURES = [
    ('2 ^ -1074, the smallest: 2 ^ -537', 1),
    ('the next one', 2),
    ('a subnormal', 0x0000000000ABCDEF),
    ('the largest subnormal', FIELD - 1),
    ('the smallest normal', FIELD),
    ('1 / 4', bits(0.25)),
    ('0.1', bits(0.1)),
    ('1, and its two neighbours', bits(1.0) - 1),
    ('', bits(1.0)),
    ('', bits(1.0) + 1),
    ('2, an odd exponent', bits(2.0)),
    ('4, and its two neighbours', bits(4.0) - 1),
    ('', bits(4.0)),
    ('', bits(4.0) + 1),
    ('10', bits(10.0)),
    ('(2 ^ 27 - 1) squared, which 53 digits do not hold', bits(float((2 ** 27 - 1) ** 2))),
    ('1e300', bits(1e300)),
    ('the largest', INFINITY - 1),
    ('zero, and minus zero', 0),
    ('', SIGN),
    ('infinity, and minus infinity', INFINITY),
    ('', SIGN | INFINITY),
    ('not-a-number', NAN),
    ('-1, and the smallest negative', bits(-1.0)),
    ('', SIGN | 1),
]

if '--figures' in sys.argv:
    for said, b in FIGURES:
        if said:
            print(f'    -- {said}')
        print(f'    (0x{b:016x}, 0x{root(b):016x}) ∷')
    sys.exit()
lines = [b for _, b in FIGURES] + list(patterns())
with open('crates/root_list/stdin', 'w') as f:
    f.write(''.join(f'{b:016x}\n' for b in lines))
with open('crates/root_list/stdout', 'w') as f:
    f.write(''.join(f'{root(b):016x}\n' for b in lines))
print(f'{len(lines)} patterns')
