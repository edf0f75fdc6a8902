#!/usr/bin/env python3
"""Makes a second image for the disassembler, and the expected lines: the sample program, then slots that hold no carried instruction,
and, beside them, slots that do, where a bit is ignored or a hint is undefined.

    python3 tests/refused_cases.py FOLDER

writes FOLDER/stdin and FOLDER/stdout, and prints how many slots of each unit are refused, and how many are read. The sample's lines are
those of samples/timers.dump; all else is by hand, and no assembler takes part. The answer is the same at each run.

A layout goes from the highest bit of a slot to the lowest. Its pieces are a number and how many bits it has, as 8:4, or any:7, seven
bits that do not matter. A slot with such bits comes twice, first with zeros there.
"""
import collections
import random
import sys

chance = random.Random(41)
# by unit: slots, each with its text, or None
CASES = collections.defaultdict(list)


def slots(layout, width):
    """The slots that the layout stands for: one, or two if some bits do not matter."""
    made = []
    for of_any in (lambda bits: 0, chance.getrandbits):
        slot = total = 0
        for piece in layout.split():
            value, bits = piece.split(':')
            bits = int(bits)
            value = of_any(bits) if value == 'any' else int(value)
            assert value < 1 << bits, layout
            slot, total = slot << bits | value, total + bits
        assert total == width, (layout, total)
        made.append(slot)
    return sorted(set(made), key=made.index)


def refused(units, layout):
    for unit in units:
        CASES[unit] += [(slot, None) for slot in slots(layout, 41)]


def read(units, text, layout):
    for unit in units:
        CASES[unit] += [(slot, text) for slot in slots(layout, 41)]


# A: in slots of the M unit and of the I unit.
# Bit 33 is reserved, and must be 0, where bits 35:34 are 0, 2 or 3.
read('MI', 'add r1=r2,r3', '8:4 any:1 0:2 0:1 0:4 0:2 3:7 2:7 1:7 0:6')
refused('MI', '8:4 any:1 0:2 1:1 0:4 0:2 any:27')
read('MI', 'shladd r1=r2,4,r3', '8:4 any:1 0:2 0:1 4:4 3:2 3:7 2:7 1:7 0:6')
refused('MI', '8:4 any:1 0:2 1:1 4:4 any:2 any:27')
refused('MI', '8:4 any:1 0:2 1:1 6:4 any:2 any:27')
read('MI', '(p01) sub r1=-128,r3', '8:4 1:1 0:2 0:1 9:4 1:2 3:7 0:7 1:7 1:6')
refused('MI', '8:4 any:1 0:2 1:1 9:4 1:2 any:27')
refused('MI', '8:4 any:1 0:2 1:1 11:4 any:2 any:27')
read('MI', 'adds r1=-8192,r3', '8:4 1:1 2:2 0:1 0:6 3:7 0:7 1:7 0:6')
refused('MI', '8:4 any:1 2:2 1:1 any:6 any:27')
read('MI', 'addp4 r1=-1,r3', '8:4 1:1 3:2 0:1 63:6 3:7 127:7 1:7 0:6')
refused('MI', '8:4 any:1 3:2 1:1 any:6 any:27')
# Every other pair of bits 32:29 and 28:27.
NAMED = {(0, 0), (0, 1), (1, 0), (1, 1), (2, 0), (9, 1)} | {(x4, x2b) for x4 in (3, 4, 6, 11) for x2b in range(4)}
for x4 in range(16):
    for x2b in range(4):
        if (x4, x2b) not in NAMED:
            refused('MI', f'8:4 any:1 0:2 0:1 {x4}:4 {x2b}:2 any:27')
# Bits 35:34 are 1: padd, psub, pavg, pavgsub, pcmp, pshladd2, pshradd2, and nothing.
for x4 in range(16):
    refused('MI', f'8:4 any:1 1:2 any:1 {x4}:4 any:2 any:27')
# Compare to zero: bits 19:13 must be 0.
for opcode, parallel in [(12, 'and'), (13, 'or'), (14, 'or.andcm')]:
    for size, name in enumerate(['cmp', 'cmp4']):
        read('MI', f'{name}.le.{parallel} p1,p2=r0,r127', f'{opcode}:4 1:1 {size}:2 0:1 2:6 127:7 0:7 1:1 1:6 0:6')
        refused('MI', f'{opcode}:4 1:1 {size}:2 any:1 any:6 any:7 {1 << 3 * size}:7 any:1 any:6 any:6')
        refused('MI', f'{opcode}:4 1:1 {size}:2 any:1 any:6 any:7 127:7 any:1 any:6 any:6')
for bit in range(7):
    refused('MI', f'12:4 1:1 0:2 any:1 any:6 any:7 {1 << bit}:7 any:1 any:6 any:6')
# Major opcodes that are empty.
for opcode in (10, 11, 15):
    refused('MI', f'{opcode}:4 any:37')

# I.
for opcode in (1, 2, 3, 6):
    refused('I', f'{opcode}:4 any:37')
# Major opcode 7: bit 32 is reserved. The rest has multiplies, mixes, packs, mux, parallel shifts, and a later revision's clz, mpy4 and
# mpyshl4.
SHIFTS = {(1, 0, 1, 0, 0): 'shr.u r1=r3,r2', (1, 0, 1, 0, 2): 'shr r1=r3,r2', (1, 0, 1, 1, 0): 'shl r1=r2,r3'}
for za in range(2):
    for x2a in range(4):
        for zb in range(2):
            for x2c in range(4):
                for x2b in range(4):
                    layout = f'7:4 {za}:1 {x2a}:2 {zb}:1 0:1 {x2c}:2 {x2b}:2'
                    if (za, x2a, zb, x2c, x2b) in SHIFTS:
                        read('I', SHIFTS[za, x2a, zb, x2c, x2b], f'{layout} any:1 3:7 2:7 1:7 0:6')
                        refused('I', f'7:4 {za}:1 {x2a}:2 {zb}:1 1:1 {x2c}:2 {x2b}:2 any:28')
                    elif (za, x2a, zb, x2c, x2b) != (0, 1, 1, 2, 1):
                        refused('I', f'{layout} any:28')
# popcnt: bits 19:13 must be 0.
POPCNT = '7:4 0:1 1:2 1:1 0:1 2:2 1:2 any:1'
read('I', 'popcnt r1=r3', POPCNT + ' 3:7 0:7 1:7 0:6')
refused('I', '7:4 0:1 1:2 1:1 1:1 2:2 1:2 any:1 3:7 0:7 1:7 0:6')
for bit in range(7):
    refused('I', f'{POPCNT} any:7 {1 << bit}:7 any:7 any:6')
refused('I', POPCNT + ' 3:7 127:7 1:7 0:6')
# Major opcode 5: bits 35:34 are 2.
refused('I', '5:4 any:1 2:2 0:1 any:33')
refused('I', '5:4 any:1 2:2 1:1 any:33')
# tnat ignores bits 19:14; with bit 19 it is tf in a later revision.
read('I', 'tnat.z p1,p2=r3', '5:4 0:1 0:2 0:1 2:6 3:7 any:6 1:1 0:1 1:6 0:6')
read('I', 'tnat.z p1,p2=r3', '5:4 0:1 0:2 0:1 2:6 3:7 32:6 1:1 0:1 1:6 0:6')
read('I', '(p63) tnat.nz.or.andcm p1,p2=r3', '5:4 1:1 0:2 1:1 2:6 3:7 63:6 1:1 1:1 1:6 63:6')
# Major opcode 0: bits 35:33 are 4, 5 or 6.
for x3 in (4, 5, 6):
    refused('I', f'0:4 any:1 {x3}:3 any:33')
# Bits 35:33 are 0, and bits 32:27 are none of these; czx is among the others.
NAMED = {0x00, 0x01, 0x0a, 0x10, 0x11, 0x12, 0x14, 0x15, 0x16, 0x2a, 0x30, 0x31, 0x32, 0x33}
for x6 in range(64):
    if x6 not in NAMED:
        refused('I', f'0:4 any:1 0:3 {x6}:6 any:27')
read('I', 'sxt4 r1=r3', '0:4 any:1 0:3 22:6 3:7 any:7 1:7 0:6')
# Bit 26 of nop is ignored; it makes a later revision's hint.
read('I', 'nop.i 0x100001', '0:4 1:1 0:3 1:6 1:1 1:20 0:6')
read('I', 'break.i 0x1', '0:4 0:1 0:3 0:6 1:1 1:20 0:6')
# Application registers: of the I unit only 64 to 66; those of the M unit are 32 and 36, and 0 is ar.k0.
REGISTERS = [0, 7, 8, 16, 17, 18, 19, 21, 31, 40, 44, 48, 63, 67, 68, 96, 112, 127]
for register in REGISTERS + [32, 36]:
    refused('I', f'0:4 any:1 0:3 42:6 {register}:7 any:7 any:13')
    refused('I', f'0:4 any:1 0:3 10:6 {register}:7 any:7 any:13')
    refused('I', f'0:4 any:1 0:3 50:6 {register}:7 any:7 any:13')
for register, name in [(64, 'ar.pfs'), (65, 'ar.lc'), (66, 'ar.ec')]:
    read('I', f'mov.i {name}=r2', f'0:4 any:1 0:3 42:6 {register}:7 2:7 any:7 0:6')
    read('I', f'mov.i {name}=-127', f'0:4 1:1 0:3 10:6 {register}:7 1:7 any:7 0:6')
    read('I', f'mov.i r1={name}', f'0:4 any:1 0:3 50:6 {register}:7 any:7 1:7 0:6')
# A move to a branch register ignores bits 32:23 and 21:20, where a later revision has hints and a tag.
for hint in range(4):
    for important in range(2):
        read('I', 'mov b3=r9', f'0:4 any:1 7:3 any:9 {important}:1 0:1 {hint}:2 9:7 any:4 3:3 0:6')
        read('I', 'mov.ret b3=r9', f'0:4 any:1 7:3 any:9 {important}:1 1:1 {hint}:2 9:7 any:4 3:3 0:6')

# M.
for opcode in (2, 3):
    refused('M', f'{opcode}:4 any:37')
# Loads and stores of floating-point registers, lfetch, setf.
for opcode in (6, 7):
    for x6 in range(64):
        refused('M', f'{opcode}:4 any:1 {x6}:6 any:2 any:1 any:27')
LOADS = set(range(0x18)) | {0x1b} | set(range(0x20, 0x2c))
STORES = set(range(0x30, 0x38)) | {0x3b}
for x6 in range(64):
    if x6 not in LOADS:
        # with a register that is added to the base there are no stores
        refused('M', f'4:4 1:1 {x6}:6 any:2 0:1 any:27')
        if x6 not in STORES:
            refused('M', f'4:4 0:1 {x6}:6 any:2 0:1 any:27')
            refused('M', f'5:4 any:1 {x6}:6 any:2 any:1 any:27')
    # Bit 27: cmpxchg, xchg, fetchadd, getf, a later revision's ld16, st16 and cmp8xchg16; with bit 36 too, nothing.
    refused('M', f'4:4 0:1 {x6}:6 any:2 1:1 any:27')
    refused('M', f'4:4 1:1 {x6}:6 any:2 1:1 any:27')
# Hints that are undefined are read; without a base update a later revision has a third bit of them, which is ignored here.
for hint, load, store in [(0, '', ''), (1, '.nt1', '.d1'), (2, '.d2', '.d2'), (3, '.nta', '.nta')]:
    read('M', f'ld8.c.clr.acq{load} r1=[r3]', f'4:4 0:1 43:6 {hint}:2 0:1 3:7 any:7 1:7 0:6')
    read('M', f'ld1{load} r1=[r3]', f'4:4 0:1 0:6 {hint}:2 0:1 3:7 64:7 1:7 0:6')
    read('M', f'ld8.fill{load} r1=[r3],r2', f'4:4 1:1 27:6 {hint}:2 0:1 3:7 2:7 1:7 0:6')
    read('M', f'ld4.sa{load} r1=[r3],-256', f'5:4 1:1 14:6 {hint}:2 0:1 3:7 0:7 1:7 0:6')
    read('M', f'st2{store} [r3]=r2', f'4:4 0:1 49:6 {hint}:2 0:1 3:7 2:7 any:7 0:6')
    read('M', f'st8.rel{store} [r3]=r2', f'4:4 0:1 55:6 {hint}:2 0:1 3:7 2:7 64:7 0:6')
    read('M', f'st8.spill{store} [r3]=r2,255', f'5:4 0:1 59:6 {hint}:2 1:1 3:7 2:7 127:7 0:6')
# Major opcode 0: bits 35:33 are 1, 2, 3, or 6 and 7, chk.a of floating-point registers.
for x3 in (1, 2, 3, 6, 7):
    refused('M', f'0:4 any:1 {x3}:3 any:33')
read('M', 'chk.a.clr r1,ADDRESS', '0:4 0:1 5:3 0:20 1:7 0:6')
# Bits 35:33 are 0, and bits 30:27 and 32:31 are none of these: fwb, mf.a, srlz.d, srlz.i, sync.i, invala.e of a floating-point register,
# sum, rum, ssm, rsm, loadrs, flushrs are among the others.
NAMED = {(0, 0), (1, 0), (0, 1), (2, 1), (2, 2), (8, 2)}
for x4 in range(16):
    for x2 in range(4):
        if (x4, x2) not in NAMED:
            refused('M', f'0:4 any:1 0:3 {x2}:2 {x4}:4 any:27')
read('M', '(p05) mf', '0:4 any:1 0:3 2:2 2:4 any:21 5:6')
read('M', '(p05) invala', '0:4 any:1 0:3 1:2 0:4 any:21 5:6')
read('M', '(p05) invala.e r1', '0:4 any:1 0:3 1:2 2:4 any:14 1:7 5:6')
read('M', 'nop.m 0x100001', '0:4 1:1 0:3 0:2 1:4 1:1 1:20 0:6')
read('M', 'break.m 0x1', '0:4 0:1 0:3 0:2 0:4 1:1 1:20 0:6')
# Major opcode 1: bits 35:33 are 2, 3 (chk.s of a floating-point register), 4, 5 or 7.
for x3 in (2, 3, 4, 5, 7):
    refused('M', f'1:4 any:1 {x3}:3 any:33')
read('M', 'chk.s.m r2,ADDRESS', '1:4 0:1 1:3 0:13 2:7 0:7 0:6')
# Bits 35:33 are 0: moves of psr, cpuid, pmd and other registers of the system, fc.
for x6 in range(64):
    if x6 not in (0x22, 0x2a):
        refused('M', f'1:4 any:1 0:3 {x6}:6 any:27')
# Application registers: of the M unit only 32 and 36; those of the I unit are 64 to 66.
for register in REGISTERS + [64, 65, 66]:
    refused('M', f'1:4 any:1 0:3 42:6 {register}:7 any:7 any:13')
    refused('M', f'0:4 any:1 0:3 2:2 8:4 {register}:7 any:7 any:13')
    refused('M', f'1:4 any:1 0:3 34:6 {register}:7 any:7 any:13')
for register, name in [(32, 'ar.ccv'), (36, 'ar.unat')]:
    read('M', f'mov.m {name}=r2', f'1:4 any:1 0:3 42:6 {register}:7 2:7 any:7 0:6')
    read('M', f'mov.m {name}=-127', f'0:4 1:1 0:3 2:2 8:4 {register}:7 1:7 any:7 0:6')
    read('M', f'mov.m r1={name}', f'1:4 any:1 0:3 34:6 {register}:7 any:7 1:7 0:6')
# alloc is read with any predicate and any frame.
read('M', 'alloc r1=ar.pfs,127,3,120', '1:4 any:1 6:3 any:2 15:4 3:7 127:7 1:7 0:6')
read('M', 'alloc r1=ar.pfs,3,127,8', '1:4 any:1 6:3 any:2 1:4 127:7 3:7 1:7 63:6')

# B.
for opcode in (3, 6, 8, 9, 10, 11, 12, 13, 14, 15):
    refused('B', f'{opcode}:4 any:37')
# Major opcode 4: no branch has type 1 or 4.
for btype in (1, 4):
    refused('B', f'4:4 any:1 any:1 any:2 any:20 any:1 any:3 {btype}:3 any:6')
# Bits 5:0 of a counted branch must be 0.
for btype, name in [(5, 'cloop'), (6, 'cexit'), (7, 'ctop')]:
    read('B', f'br.{name}.dpnt.many.clr ADDRESS', f'4:4 0:1 1:1 3:2 0:20 1:1 any:3 {btype}:3 0:6')
    for bit in range(6):
        refused('B', f'4:4 any:1 any:1 any:2 any:20 any:1 any:3 {btype}:3 {1 << bit}:6')
    refused('B', f'4:4 0:1 1:1 3:2 0:20 1:1 any:3 {btype}:3 63:6')
# wexit and wtop have a predicate there.
read('B', '(p63) br.wexit.sptk.few ADDRESS', '4:4 0:1 0:1 0:2 0:20 0:1 any:3 2:3 63:6')
read('B', '(p01) br.wtop.sptk.few ADDRESS', '4:4 0:1 0:1 0:2 0:20 0:1 any:3 3:3 1:6')
# Major opcode 0: bits 32:27 are none of these; cover, rfi, bsw.0, bsw.1, epc are among the others.
for x6 in range(64):
    if x6 not in (0x00, 0x04, 0x05, 0x20, 0x21):
        refused('B', f'0:4 any:1 any:3 {x6}:6 any:27')
# Branches to a branch register have type 0, and a return has type 4; br.ia is type 1.
for btype in range(8):
    layout = f'any:11 7:3 0:1 any:3 {btype}:3 7:6'
    if btype != 0:
        refused('B', f'0:4 any:1 any:1 any:2 32:6 {layout}')
    if btype != 4:
        refused('B', f'0:4 any:1 any:1 any:2 33:6 {layout}')
read('B', '(p07) br.cond.sptk.few b7', '0:4 any:1 0:1 0:2 32:6 any:11 7:3 0:1 any:3 0:3 7:6')
read('B', '(p07) br.ret.sptk.few b7', '0:4 any:1 0:1 0:2 33:6 any:11 7:3 0:1 any:3 4:3 7:6')
# Bits 5:0 of clrrrb must be 0.
for x6, name in [(4, 'clrrrb'), (5, 'clrrrb.pr')]:
    read('B', name, f'0:4 any:4 {x6}:6 any:21 0:6')
    for bit in range(6):
        refused('B', f'0:4 any:4 {x6}:6 any:21 {1 << bit}:6')
    refused('B', f'0:4 any:4 {x6}:6 any:21 63:6')
# Bit 26 and bits 35:33 of nop and break are ignored.
read('B', 'nop.b 0x100001', '2:4 1:1 any:3 0:6 1:1 1:20 0:6')
read('B', 'break.b 0x1', '0:4 0:1 any:3 0:6 1:1 1:20 0:6')
# Major opcode 2: a later revision's hint.b, and nothing.
for x6 in range(64):
    if x6 not in (0x00, 0x10, 0x11):
        refused('B', f'2:4 any:1 any:3 {x6}:6 any:27')
# Predictions have no predicate; every hint is read, though by a branch register only the first and the third are defined.
for hint, name in enumerate(['sptk', 'loop', 'dptk', 'exit']):
    read('B', f'brp.{name} ADDRESS,ADDRESS', f'7:4 0:1 0:1 0:2 0:20 0:7 any:1 {hint}:2 any:3')
    read('B', f'brp.{name}.imp b3,ADDRESS', f'2:4 any:1 1:1 0:2 16:6 any:11 3:3 0:7 any:1 {hint}:2 any:3')
    read('B', f'brp.ret.{name} b3,ADDRESS', f'2:4 any:1 0:1 0:2 17:6 any:11 3:3 0:7 any:1 {hint}:2 any:3')
# The hint of a call by a branch register has a third bit, bit 32, and is defined where that is 1.
for wh, name in enumerate(['sptk', 'spnt', 'dptk', 'dpnt']):
    for known in range(2):
        read('B', f'br.call.{name}.few b1=b2', f'1:4 any:1 0:1 {wh}:2 {known}:1 any:16 2:3 0:1 any:3 1:3 0:6')

# F: all but nop.f and break.f, which ignore bits 35:34 and bit 26.
for opcode in range(1, 16):
    refused('F', f'{opcode}:4 any:37')
refused('F', '0:4 any:1 any:2 1:1 any:33')
for x6 in range(2, 64):
    refused('F', f'0:4 any:1 any:2 0:1 {x6}:6 any:27')
read('F', 'nop.f 0x100001', '0:4 1:1 any:2 0:1 1:6 1:1 1:20 0:6')
read('F', 'break.f 0x1', '0:4 0:1 any:2 0:1 0:6 1:1 1:20 0:6')

# X, with nothing but ones in the L slot: brl is among them. Bit 20 of movl is reserved.
for opcode in [1, 2, 3, 4, 5] + list(range(7, 16)):
    refused('X', f'{opcode}:4 any:37')
for x3 in range(1, 8):
    refused('X', f'0:4 any:1 {x3}:3 any:33')
for x6 in range(2, 64):
    refused('X', f'0:4 any:1 0:3 {x6}:6 any:27')
refused('X', '6:4 any:1 any:9 any:5 any:1 1:1 any:7 any:7 any:6')
read('X', '(p01) movl r1=0x7fffffffffc00000', '6:4 0:1 0:9 0:5 0:1 0:1 0:7 1:7 1:6')
read('X', '(p63) nop.x 0x3fffffffffe00001', '0:4 0:1 0:3 1:6 1:1 1:20 63:6')
read('X', '(p63) break.x 0x3ffffffffff00001', '0:4 1:1 0:3 0:6 1:1 1:20 63:6')

# By unit: a template with no stop, the units of its slots, and which of them hold cases. The template's number and 1 has a stop at the
# end of the bundle.
PLACES = {'M': (0x08, 'MMI', (0, 1)), 'I': (0x00, 'MII', (1, 2)), 'F': (0x0c, 'MFI', (1,)), 'B': (0x16, 'BBB', (0, 1, 2)),
          'X': (0x04, 'MLX', (2,))}
NOP = {'M': (1 << 27, 'nop.m 0x0'), 'I': (1 << 27, 'nop.i 0x0'), 'B': (2 << 37, 'nop.b 0x0')}
RESERVED = [0x06, 0x07, 0x14, 0x15, 0x1a, 0x1b, 0x1e, 0x1f]
with open('samples/timers.bin', 'rb') as sample, open('samples/timers.dump') as dump:
    image, lines = bytearray(sample.read()), dump.read().splitlines()


def bundle(template, held, stop):
    """Adds a bundle: its slots with their texts. Where a text is None, no instruction is carried."""
    address = len(image)
    bits = template
    for number, (slot, text) in enumerate(held):
        bits |= slot << 5 + 41 * number
        text = f'? {slot:011X}' if text is None else text.replace('ADDRESS', hex(address)) + ';;' * (number == stop)
        lines.append(f'{address:016X} {number} {text}')
    image.extend(bits.to_bytes(16, 'little'))


for unit, cases in CASES.items():
    template, units, places = PLACES[unit]
    for first in range(0, len(cases), len(places)):
        stops = first // len(places) % 2
        if unit == 'X':
            # the instruction is written at slot 1, and slot 2 holds none
            (slot, text), long = cases[first], (1 << 41) - 1
            bundle(template + stops, [NOP['M'], (long, text), (slot, None)], 1 if stops else None)
        else:
            held = [NOP.get(of) for of in units]
            for place, case in zip(places, cases[first:]):
                held[place] = case
            bundle(template + stops, held, 2 if stops else None)
# A template that is reserved has no instructions.
for template in RESERVED:
    bundle(template, [(1 << 27, None)] * 3, None)
    bundle(template, [(2 << 37, None)] * 3, None)
assert len(image) <= 65536

with open(f'{sys.argv[1]}/stdin', 'wb') as given:
    given.write(image)
    # less than a bundle, which is left out
    given.write(bytes(15))
with open(f'{sys.argv[1]}/stdout', 'w') as expected:
    expected.write('\n'.join(lines) + '\n')

print('unit  refused   read')
for unit, cases in CASES.items():
    carried = sum(text is not None for _, text in cases)
    print(f'{unit:4}  {len(cases) - carried:7}  {carried:5}')
