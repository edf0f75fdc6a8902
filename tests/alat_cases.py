#!/usr/bin/env python3
"""Requests for the three kinds of ALAT, and what they answer by a plain model of the rules.

Remake the files of crates/alat_tests, at the top of the repository:

    python3 tests/alat_cases.py requests > crates/alat_tests/stdin
    python3 tests/alat_cases.py answers < crates/alat_tests/stdin > crates/alat_tests/stdout

The model keeps each table as a plain list of entries (cell, address, size), the oldest first, and an access as the set
of the addresses of its bytes.
"""
import random
import sys

TOP = 2 ** 64


def touched(address, size):
    return set(range(address, address + size))


class Nothing:
    def __init__(self):
        self.entries = []

    def enter(self, entry):
        pass

    def store(self, address, size):
        written = touched(address, size)
        self.entries = [e for e in self.entries if not written & touched(e[1], e[2])]

    def remove(self, cell):
        self.entries = [e for e in self.entries if e[0] != cell]

    def clear(self):
        self.entries = []

    def find(self, cell):
        found = [e for e in self.entries if e[0] == cell]
        assert len(found) <= 1
        return found[0] if found else None


class Places32(Nothing):
    def enter(self, entry):
        self.entries = [e for e in self.entries if e[0] % 32 != entry[0] % 32] + [entry]


class Oldest16(Nothing):
    def enter(self, entry):
        self.remove(entry[0])
        if len(self.entries) == 16:
            self.entries.pop(0)
        self.entries.append(entry)


def shown(entry):
    return 'none' if entry is None else '%d:%d:%d' % entry


def answers(lines):
    tables = [('none', Nothing()), ('direct', Places32()), ('associative', Oldest16())]
    for line in lines:
        name, *words = line.split()
        words = [int(w) for w in words]
        if name == 'find':
            print('find', *(shown(t.find(words[0])) for _, t in tables))
        elif name == 'list':
            for kind, t in tables:
                print(kind, *(shown(e) for e in sorted(t.entries)))
        elif name == 'enter':
            for _, t in tables:
                t.enter(tuple(words))
        else:
            for _, t in tables:
                getattr(t, name)(*words)


def requests(count, seed):
    rng = random.Random(seed)

    def cell():
        # few cells, so that they meet again, and those at both ends of the bank
        return rng.choice([rng.randrange(24), rng.randrange(24), rng.randrange(96), 4127 - rng.randrange(64)])

    def address():
        # few bytes, so that accesses overlap, and those at both ends of memory
        return rng.choice([0x1000 + rng.randrange(256), 0x1000 + rng.randrange(2048), rng.randrange(32), TOP - 1 - rng.randrange(32)])

    def size():
        return rng.choice([1, 2, 4, 8])

    for i in range(count):
        kind = rng.random()
        if i % 40 == 39:
            print('list')
        elif kind < 0.45:
            print('enter', cell(), address(), size())
        elif kind < 0.55:
            print('store', address(), size())
        elif kind < 0.65:
            print('remove', cell())
        elif kind < 0.655:
            print('clear')
        else:
            print('find', cell())


if sys.argv[1:] == ['requests']:
    requests(6000, 64)
elif sys.argv[1:] == ['answers']:
    answers(sys.stdin)
else:
    sys.exit(__doc__)
