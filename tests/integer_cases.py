#!/usr/bin/env python3
"""Makes the input and the expected output of the program `integer_tests`: operands at the corners, and what Python's integers make of
them for each operation.

    python3 tests/integer_cases.py

writes crates/integer_tests/stdin and crates/integer_tests/stdout. A case has 20 bytes: the number of the operation, a position, a
length less one, a small number (a scale or a part), and two words, little-endian. Each answer is a word in hexadecimal, on a line.
"""
import random
import struct

M = 2 ** 64


def signed(x, bits=64):
    x %= 2 ** bits
    return x - 2 ** bits if x >> (bits - 1) else x


def pointer(a, b):
    return (a + b) % 2 ** 32 | (b >> 30 & 3) << 61


def extr(a, at, length):
    length = min(length, 64 - at)
    return signed(a >> at, length)


def dep(a, b, at, length):
    mask = (2 ** min(length, 64 - at) - 1) << at
    return b & ~mask | a << at & mask


def popcnt(a):
    return bin(a).count('1')


PART = [8, 16, 32]

# by number: the result of a, b, position, length and the small number
OPERATIONS = [
    lambda a, b, p, l, s: a + b,
    lambda a, b, p, l, s: a + b + 1,
    lambda a, b, p, l, s: a - b,
    lambda a, b, p, l, s: a - b - 1,
    lambda a, b, p, l, s: (a << s + 1) + b,
    lambda a, b, p, l, s: pointer(a, b),
    lambda a, b, p, l, s: pointer(a << s + 1, b),
    lambda a, b, p, l, s: a & b,
    lambda a, b, p, l, s: a & ~b,
    lambda a, b, p, l, s: a | b,
    lambda a, b, p, l, s: a ^ b,
    lambda a, b, p, l, s: a << b if b < 64 else 0,
    lambda a, b, p, l, s: signed(a) >> min(b, 64),
    lambda a, b, p, l, s: a >> b if b < 64 else 0,
    lambda a, b, p, l, s: (a << 64 | b) >> p,
    lambda a, b, p, l, s: extr(a, p, l),
    lambda a, b, p, l, s: (a >> p) % 2 ** l,
    lambda a, b, p, l, s: dep(a, b, p, l),
    lambda a, b, p, l, s: dep(a, 0, p, l),
    lambda a, b, p, l, s: signed(a, PART[s % 3]),
    lambda a, b, p, l, s: a % 2 ** PART[s % 3],
    lambda a, b, p, l, s: signed(a, l),
    lambda a, b, p, l, s: popcnt(a),
    lambda a, b, p, l, s: a >> p & 1,
    lambda a, b, p, l, s: a == b,
    lambda a, b, p, l, s: signed(a) < signed(b),
    lambda a, b, p, l, s: a < b,
    lambda a, b, p, l, s: signed(a) <= signed(b),
    lambda a, b, p, l, s: signed(a) > signed(b),
    lambda a, b, p, l, s: signed(a) >= signed(b),
    lambda a, b, p, l, s: a % 2 ** 32 == b % 2 ** 32,
    lambda a, b, p, l, s: signed(a, 32) < signed(b, 32),
    lambda a, b, p, l, s: a % 2 ** 32 < b % 2 ** 32,
    lambda a, b, p, l, s: signed(a, 32) <= signed(b, 32),
    lambda a, b, p, l, s: signed(a, 32) > signed(b, 32),
    lambda a, b, p, l, s: signed(a, 32) >= signed(b, 32),
]

CORNERS = [0, 1, 2, 3, 62, 63, 64, 65, 0x7f, 0x80, 0xff, 0x100, 0x7fff, 0x8000, 0x7fffffff, 0x80000000, 0xffffffff, 0x100000000,
           2 ** 63 - 1, 2 ** 63, 2 ** 63 + 1, M - 64, M - 2, M - 1, 0xc0000000, 0x123456789abcdef0, 0xfedcba9876543210]
chance = random.Random(64)
operands = [(a, b) for a in CORNERS for b in CORNERS]

with open('crates/integer_tests/stdin', 'wb') as given, open('crates/integer_tests/stdout', 'w') as expected:
    for number, operation in enumerate(OPERATIONS):
        chosen = chance.sample(operands, 90) + [(chance.getrandbits(64), chance.getrandbits(64)) for _ in range(20)]
        chosen += [(M - 1, 1), (M - 1, 64), (1, 64), (2 ** 63, 63)]
        for a, b in chosen:
            position = chance.choice([0, 1, 31, 32, 62, 63, chance.randrange(64)])
            length = chance.choice([1, 2, 9, 14, 21, 22, 32, 63, 64, chance.randrange(1, 65)])
            small = chance.randrange(4)
            given.write(struct.pack('<BBBBQQ', number, position, length - 1, small, a, b))
            expected.write(f'{operation(a, b, position, length, small) % M:016x}\n')
