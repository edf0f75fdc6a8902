#!/usr/bin/env python3
"""Makes the input and the expected output of the program `memory_tests`: accesses to memories of every kind, and what a plain model,
a dictionary from addresses to bytes and rights, answers to them.

    python3 tests/memory_cases.py

writes crates/memory_tests/stdin and crates/memory_tests/stdout. An access has 18 bytes: what it does (0 load, 1 store, 2 to 4 a
question for the read, write and speculative right), its size as a power of two, its address and its value, little-endian.
"""
import random
import struct

TOP = 2 ** 64
READ, WRITE, SPECULATIVE = range(3)


class Model:
    """A memory as a dictionary: the addresses that it has not are without rights."""

    def __init__(self):
        self.byte, self.rights = {}, {}

    def lay(self, base, data, rights):
        for i, byte in enumerate(data):
            if base + i < TOP:
                self.byte[base + i], self.rights[base + i] = byte, set(rights)
        return self

    def take(self, first, last, rights):
        for address in self.rights:
            if first <= address <= last:
                self.rights[address] = self.rights[address] - set(rights)
        return self

    def has(self, right, address, count):
        return all(right in self.rights.get(a, ()) for a in range(address, address + count))

    def answer(self, action, count, address, value):
        if action >= 2:
            return 'yes' if self.has(action - 2, address, count) else 'no'
        if not self.has(WRITE if action else READ, address, count):
            return f'missing {address:016x}'
        if action:
            for i in range(count):
                self.byte[address + i] = value >> (8 * i) & 0xff
            return 'stored'
        return f'{int.from_bytes(bytes(self.byte[address + i] for i in range(count)), "little"):016x}'


class Image(Model):
    def answer(self, action, count, address, value):
        return '-' if action == 1 else super().answer(action, count, address, value)


# the bytes that the program fills each memory with
def data(count):
    return [i * 7 % 256 for i in range(count)]


PAGES = [
    (0x5000, (READ, WRITE, SPECULATIVE)),
    (0x4000, (READ, WRITE)),
    (TOP - 4096, (READ, WRITE, SPECULATIVE)),
    (0x7000, (READ,)),
    (0x45000, (READ, WRITE)),
    (0x6000, (WRITE, SPECULATIVE)),
]
RANGES = [
    (0x1010, 0x101f, (WRITE,)),
    (0x1018, 0x1027, (READ,)),
    (0x2000, 0x1000, (READ, WRITE, SPECULATIVE)),
    (0x4ffc, 0x5003, (SPECULATIVE,)),
    (TOP - 8, TOP - 1, (WRITE,)),
    (0x5ff8, 0x5ff8, (READ, WRITE)),
]


def paged():
    model, bytes_ = Model(), data(6 * 4096)
    for i, (base, rights) in enumerate(PAGES):
        model.lay(base, bytes_[4096 * i:4096 * i + 4096], rights)
    return model


def protected(model):
    for first, last, rights in RANGES:
        model.take(first, last, rights)
    return model


ALL = (READ, WRITE, SPECULATIVE)
memories = [
    Image().lay(0x1000, data(64), (READ,)),
    Model().lay(0x1000, data(64), ALL),
    Model().lay(TOP - 16, data(64), ALL),
    paged(),
    protected(Model().lay(0x1000, data(64), ALL)),
    protected(paged()),
    protected(paged()).take(0x4000, 0x4fff, (WRITE,)),
]

EDGES = [0x1000, 0x1010, 0x1018, 0x1020, 0x1028, 0x1040, 0x2000, 0x4000, 0x5000, 0x6000, 0x7000, 0x8000, 0x45000, 0x46000, TOP - 4096, TOP - 16, TOP, 0]
chance = random.Random(20261117)
accesses = [(action, size, (edge + offset) % TOP, chance.getrandbits(64))
            for edge in EDGES for offset in range(-9, 10, 3) for size in range(4) for action in (2, 3, 1, 0)]
for _ in range(1200):
    address = (chance.choice(EDGES) + chance.choice([chance.randrange(-9, 10), chance.randrange(-64, 64)])) % TOP
    accesses.append((chance.choice([0, 0, 1, 1, 2, 3, 4]), chance.randrange(4), address, chance.getrandbits(64)))

with open('crates/memory_tests/stdin', 'wb') as given, open('crates/memory_tests/stdout', 'w') as expected:
    for action, size, address, value in accesses:
        given.write(struct.pack('<BBQQ', action, size, address, value))
        expected.write(' '.join(m.answer(action, 1 << size, address, value) for m in memories) + '\n')
