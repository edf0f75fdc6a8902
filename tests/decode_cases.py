#!/usr/bin/env python3
"""Makes the input and the expected output of the program `disassembler`: an image that goes through every carried form and every
completer, and what GNU objdump writes for it.

    python3 tests/decode_cases.py FOLDER

writes FOLDER/stdin, the image of 65,536 bytes, and FOLDER/stdout, a line for each slot, and prints how many slots each format has. It
needs the programs of Debian's package binutils-ia64-linux-gnu; the answer is the same at each run.

    python3 tests/decode_cases.py --image samples/timers.bin > samples/timers.dump

writes the lines of one image, after the assembler has made that image again from them.

The table of formats below is written apart from the decoder, and is held against the assembler: each instruction of the first two
parts of the image is drawn as a value for each operand, is written as source text, and what the assembler makes of the text must be
what the table makes of the operands.

    part 1   as the assembler makes it: every ignored bit is zero
    part 2   the same, with other operands and with random ignored bits
    part 3   by the table alone: random operands and ignored bits, also what the assembler refuses, as a counted branch in slot 0

objdump is asked about the whole image twice, with the ignored bits and without, and must write the same both times. Where it reads a
later revision of the architecture, the slots are left out; the reason stands beside the rule.
"""
import collections
import random
import re
import subprocess
import sys
import tempfile

AS, OBJCOPY, OBJDUMP = ('ia64-linux-gnu-' + tool for tool in ('as', 'objcopy', 'objdump'))
BUNDLES = 4096
PARTS = 1365, 2730

# Each form: its format, the units that carry it, its source text, and its layout from the highest bit to the lowest. A piece of a layout
# is one of
#
#     8:4          the number 8 in four bits
#     r1:7         an operand in seven bits
#     imm14.7:6    six bits of an operand, its bits 7 to 12
#     -:1          an ignored bit
#     ?:1          a bit that is ignored here, and that objdump reads: it stays zero
#     ?1:2         the same, and it stays at 1
#
# The operands immN are signed numbers of N bits, and uN are unsigned.
Form = collections.namedtuple('Form', 'format units text pieces operands')
FORMS = []
WIDTHS = {'X': 82}


def form(name, units, text, layout):
    pieces, operands, low = [], {}, WIDTHS.get(units, 41)
    for piece in layout.split():
        what, width = piece.split(':')
        operand, _, start = what.partition('.')
        width, start = int(width), int(start or 0)
        low -= width
        pieces.append((operand, start, low, width))
        if operand[0].isalpha():
            operands[operand] = operands.get(operand, 0) | (1 << width) - 1 << start
    assert low == 0, (name, text, layout)
    FORMS.append(Form(name, units, text, pieces, operands))


# A: integer arithmetic, logic and compares, in slots of the M unit and of the I unit.
THREE = 'r3:7 r2:7 r1:7 qp:6'
for text, x4, x2b in [('add r{r1}=r{r2},r{r3}', 0, 0), ('add r{r1}=r{r2},r{r3},1', 0, 1), ('sub r{r1}=r{r2},r{r3}', 1, 1),
                      ('sub r{r1}=r{r2},r{r3},1', 1, 0), ('addp4 r{r1}=r{r2},r{r3}', 2, 0), ('and r{r1}=r{r2},r{r3}', 3, 0),
                      ('andcm r{r1}=r{r2},r{r3}', 3, 1), ('or r{r1}=r{r2},r{r3}', 3, 2), ('xor r{r1}=r{r2},r{r3}', 3, 3)]:
    form('A1', 'MI', text, f'8:4 -:1 0:2 0:1 {x4}:4 {x2b}:2 {THREE}')
for name, x4 in [('shladd', 4), ('shladdp4', 6)]:
    for ct in range(4):
        form('A2', 'MI', f'{name} r{{r1}}=r{{r2}},{ct + 1},r{{r3}}', f'8:4 -:1 0:2 0:1 {x4}:4 {ct}:2 {THREE}')
for name, x4, x2b in [('sub', 9, 1), ('and', 11, 0), ('andcm', 11, 1), ('or', 11, 2), ('xor', 11, 3)]:
    form('A3', 'MI', name + ' r{r1}={imm8},r{r3}', f'8:4 imm8.7:1 0:2 0:1 {x4}:4 {x2b}:2 r3:7 imm8:7 r1:7 qp:6')
for name, x2a in [('adds', 2), ('addp4', 3)]:
    form('A4', 'MI', name + ' r{r1}={imm14},r{r3}', f'8:4 imm14.13:1 {x2a}:2 0:1 imm14.7:6 r3:7 imm14:7 r1:7 qp:6')
# two of these are written as moves
form('A4', 'MI', 'mov r{r1}=r{r3}', '8:4 0:1 2:2 0:1 0:6 r3:7 0:7 r1:7 qp:6')
form('A5', 'MI', 'mov r{r1}={imm22}', '9:4 imm22.21:1 imm22.7:9 imm22.16:5 0:2 imm22:7 r1:7 qp:6')
form('A5', 'MI', 'addl r{r1}={imm22},r{r3}', '9:4 imm22.21:1 imm22.7:9 imm22.16:5 r3:2 imm22:7 r1:7 qp:6')
PARALLEL = ['and', 'or', 'or.andcm']
for size, name in enumerate(['cmp', 'cmp4']):
    for row, relation in enumerate(['lt', 'ltu', 'eq']):
        for ta, c, completers in [(0, 0, relation), (0, 1, relation + '.unc'), (1, 0, 'eq.' + PARALLEL[row]),
                                  (1, 1, 'ne.' + PARALLEL[row])]:
            form('A6', 'MI', f'{name}.{completers} p{{p1}},p{{p2}}=r{{r2}},r{{r3}}',
                 f'{12 + row}:4 0:1 {size}:2 {ta}:1 p2:6 r3:7 r2:7 {c}:1 p1:6 qp:6')
            form('A8', 'MI', f'{name}.{completers} p{{p1}},p{{p2}}={{imm8}},r{{r3}}',
                 f'{12 + row}:4 imm8.7:1 {2 + size}:2 {ta}:1 p2:6 r3:7 imm8:7 {c}:1 p1:6 qp:6')
        for ta, c, relation in [(0, 0, 'gt'), (0, 1, 'le'), (1, 0, 'ge'), (1, 1, 'lt')]:
            form('A7', 'MI', f'{name}.{relation}.{PARALLEL[row]} p{{p1}},p{{p2}}=r0,r{{r3}}',
                 f'{12 + row}:4 1:1 {size}:2 {ta}:1 p2:6 r3:7 0:7 {c}:1 p1:6 qp:6')

# I: shifts, bit fields, tests of a bit, and moves.
for name, x2b in [('shr.u', 0), ('shr', 2)]:
    form('I5', 'I', name + ' r{r1}=r{r3},r{r2}', f'7:4 1:1 0:2 1:1 0:1 0:2 {x2b}:2 -:1 {THREE}')
form('I7', 'I', 'shl r{r1}=r{r2},r{r3}', f'7:4 1:1 0:2 1:1 0:1 1:2 0:2 -:1 {THREE}')
form('I9', 'I', 'popcnt r{r1}=r{r3}', '7:4 0:1 1:2 1:1 0:1 2:2 1:2 -:1 r3:7 0:7 r1:7 qp:6')
form('I10', 'I', 'shrp r{r1}=r{r2},r{r3},{pos}', f'5:4 -:1 3:2 0:1 pos:6 {THREE}')
for name, y in [('extr.u', 0), ('extr', 1)]:
    form('I11', 'I', name + ' r{r1}=r{r3},{pos},{len}', f'5:4 -:1 1:2 0:1 len:6 r3:7 pos:6 {y}:1 r1:7 qp:6')
    # a field that ends at bit 63 is written as a shift
    for pos in (0, 1, 32, 62, 63):
        form('I11', 'I', f'{name.replace("ext", "sh")} r{{r1}}=r{{r3}},{pos}',
             f'5:4 -:1 1:2 0:1 {63 - pos}:6 r3:7 {pos}:6 {y}:1 r1:7 qp:6')
form('I12', 'I', 'dep.z r{r1}=r{r2},{cpos},{len}', '5:4 -:1 1:2 1:1 len:6 0:1 cpos:6 r2:7 r1:7 qp:6')
for pos in (0, 1, 32, 62, 63):
    form('I12', 'I', f'shl r{{r1}}=r{{r2}},{pos}', f'5:4 -:1 1:2 1:1 {63 - pos}:6 0:1 {63 - pos}:6 r2:7 r1:7 qp:6')
form('I13', 'I', 'dep.z r{r1}={imm8},{cpos},{len}', '5:4 imm8.7:1 1:2 1:1 len:6 1:1 cpos:6 imm8:7 r1:7 qp:6')
form('I14', 'I', 'dep r{r1}={imm1},r{r3},{cpos},{len}', '5:4 imm1:1 3:2 1:1 len:6 r3:7 cpos:6 -:1 r1:7 qp:6')
form('I15', 'I', 'dep r{r1}=r{r2},r{r3},{cpos},{len}', f'4:4 cpos:6 len:4 {THREE}')
for tb, ta, c, test in [(0, 0, 0, 'z'), (0, 0, 1, 'z.unc'), (1, 0, 0, 'z.and'), (1, 0, 1, 'nz.and'), (0, 1, 0, 'z.or'),
                        (0, 1, 1, 'nz.or'), (1, 1, 0, 'z.or.andcm'), (1, 1, 1, 'nz.or.andcm')]:
    form('I16', 'I', f'tbit.{test} p{{p1}},p{{p2}}=r{{r3}},{{pos}}',
         f'5:4 {tb}:1 0:2 {ta}:1 p2:6 r3:7 pos:6 0:1 {c}:1 p1:6 qp:6')
    # bit 19 makes a later revision's tf
    form('I17', 'I', f'tnat.{test} p{{p1}},p{{p2}}=r{{r3}}', f'5:4 {tb}:1 0:2 {ta}:1 p2:6 r3:7 ?:1 -:5 1:1 {c}:1 p1:6 qp:6')
form('I19', 'I', 'break.i {u21}', '0:4 u21.20:1 0:3 0:6 -:1 u21:20 qp:6')
# bit 26 of a nop makes a later revision's hint
form('I19', 'I', 'nop.i {u21}', '0:4 u21.20:1 0:3 1:6 ?:1 u21:20 qp:6')
form('I20', 'I', 'chk.s.i r{r2},{imm25}', '0:4 imm25.24:1 1:3 imm25.11:13 r2:7 imm25.4:7 qp:6')
# A later revision has a hint in bits 21:20, another in bit 23, and a tag in bits 32:24. What the assembler makes of a plain mov has 1 in
# bits 21:20. mov.ret has always a tag there, which is taken off objdump's text.
form('I21', 'I', 'mov b{b1}=r{r2}', '0:4 -:1 7:3 -:9 ?:1 0:1 ?1:2 r2:7 -:4 b1:3 qp:6')
form('I21', 'I', 'mov.ret b{b1}=r{r2},0', '0:4 -:1 7:3 -:9 ?:1 1:1 ?1:2 r2:7 -:4 b1:3 qp:6')
form('I22', 'I', 'mov r{r1}=b{b2}', '0:4 -:1 0:3 49:6 -:11 b2:3 r1:7 qp:6')
form('I23', 'I', 'mov pr=r{r2},{imm17}', '0:4 imm17.16:1 3:3 -:1 imm17.8:8 -:4 r2:7 imm17.1:7 qp:6')
form('I24', 'I', 'mov pr.rot={imm44}', '0:4 imm44.43:1 2:3 imm44.16:27 qp:6')
form('I25', 'I', 'mov r{r1}=ip', '0:4 -:1 0:3 48:6 -:14 r1:7 qp:6')
form('I25', 'I', 'mov r{r1}=pr', '0:4 -:1 0:3 51:6 -:14 r1:7 qp:6')
for name, ar in [('ar.pfs', 64), ('ar.lc', 65), ('ar.ec', 66)]:
    form('I26', 'I', f'mov.i {name}=r{{r2}}', f'0:4 -:1 0:3 42:6 {ar}:7 r2:7 -:7 qp:6')
    form('I27', 'I', f'mov.i {name}={{imm8}}', f'0:4 imm8.7:1 0:3 10:6 {ar}:7 imm8:7 -:7 qp:6')
    form('I28', 'I', f'mov.i r{{r1}}={name}', f'0:4 -:1 0:3 50:6 {ar}:7 -:7 r1:7 qp:6')
for x6, name in [(16, 'zxt1'), (17, 'zxt2'), (18, 'zxt4'), (20, 'sxt1'), (21, 'sxt2'), (22, 'sxt4')]:
    form('I29', 'I', name + ' r{r1}=r{r3}', f'0:4 -:1 0:3 {x6}:6 r3:7 -:7 r1:7 qp:6')

# M: loads, stores, checks, alloc, and moves.
LOADS = [(4 * row + part, f'ld{1 << part}{kind}')
         for row, kind in [(0, ''), (1, '.s'), (2, '.a'), (3, '.sa'), (4, '.bias'), (5, '.acq'), (8, '.c.clr'), (9, '.c.nc'),
                           (10, '.c.clr.acq')]
         for part in range(4)] + [(27, 'ld8.fill')]
for x6, name in LOADS:
    # hint 2 is undefined; objdump knows it, by a later revision's name, only where there is no base update, and reads a third bit of the
    # hint in bit 19
    for hint, completer in enumerate(['', '.nt1', '.d2', '.nta']):
        form('M1', 'M', f'{name}{completer} r{{r1}}=[r{{r3}}]', f'4:4 0:1 {x6}:6 {hint}:2 0:1 r3:7 ?:1 -:6 r1:7 qp:6')
        if hint != 2:
            form('M2', 'M', f'{name}{completer} r{{r1}}=[r{{r3}}],r{{r2}}', f'4:4 1:1 {x6}:6 {hint}:2 0:1 {THREE}')
            form('M3', 'M', f'{name}{completer} r{{r1}}=[r{{r3}}],{{imm9}}',
                 f'5:4 imm9.8:1 {x6}:6 {hint}:2 imm9.7:1 r3:7 imm9:7 r1:7 qp:6')
STORES = [(48 + part, f'st{1 << part}') for part in range(4)] + [(52 + part, f'st{1 << part}.rel') for part in range(4)]
for x6, name in STORES + [(59, 'st8.spill')]:
    # the same of hints 1 and 2, and the third bit is bit 12
    for hint, completer in enumerate(['', '.d1', '.d2', '.nta']):
        form('M4', 'M', f'{name}{completer} [r{{r3}}]=r{{r2}}', f'4:4 0:1 {x6}:6 {hint}:2 0:1 r3:7 r2:7 ?:1 -:6 qp:6')
        if hint in (0, 3):
            form('M5', 'M', f'{name}{completer} [r{{r3}}]=r{{r2}},{{imm9}}',
                 f'5:4 imm9.8:1 {x6}:6 {hint}:2 imm9.7:1 r3:7 r2:7 imm9:7 qp:6')
form('M20', 'M', 'chk.s.m r{r2},{imm25}', '1:4 imm25.24:1 1:3 imm25.11:13 r2:7 imm25.4:7 qp:6')
for x3, name in [(4, 'chk.a.nc'), (5, 'chk.a.clr')]:
    form('M22', 'M', name + ' r{r1},{imm25}', f'0:4 imm25.24:1 {x3}:3 imm25.4:20 r1:7 qp:6')
form('M24', 'M', 'invala', '0:4 -:1 0:3 1:2 0:4 -:21 qp:6')
form('M24', 'M', 'mf', '0:4 -:1 0:3 2:2 2:4 -:21 qp:6')
form('M26', 'M', 'invala.e r{r1}', '0:4 -:1 0:3 1:2 2:4 -:14 r1:7 qp:6')
for name, ar in [('ar.ccv', 32), ('ar.unat', 36)]:
    form('M29', 'M', f'mov.m {name}=r{{r2}}', f'1:4 -:1 0:3 42:6 {ar}:7 r2:7 -:7 qp:6')
    form('M30', 'M', f'mov.m {name}={{imm8}}', f'0:4 imm8.7:1 0:3 2:2 8:4 {ar}:7 imm8:7 -:7 qp:6')
    form('M31', 'M', f'mov.m r{{r1}}={name}', f'1:4 -:1 0:3 34:6 {ar}:7 -:7 r1:7 qp:6')
# alloc's predicate must be 0 when it is executed, but with another it is read all the same, and it is never written
form('M34', 'M', 'alloc r{r1}=ar.pfs,0,{sol},{outs},{sor}', '1:4 -:1 6:3 -:2 sor:4 sol:7 sof:7 r1:7 -:6')
form('M37', 'M', 'break.m {u21}', '0:4 u21.20:1 0:3 0:2 0:4 -:1 u21:20 qp:6')
# a later revision's hint
form('M37', 'M', 'nop.m {u21}', '0:4 u21.20:1 0:3 0:2 1:4 ?:1 u21:20 qp:6')

# B: branches, predictions of branches, and what clears rename bases.
HINTS = [(d, wh, p, f'.{whether}.{prefetch}{clr}')
         for d, clr in enumerate(['', '.clr'])
         for wh, whether in enumerate(['sptk', 'spnt', 'dptk', 'dpnt'])
         for p, prefetch in enumerate(['few', 'many'])]
for d, wh, p, hints in HINTS:
    OFFSET = f'imm25.24:1 {d}:1 {wh}:2 imm25.4:20 {p}:1 -:3'
    for btype, name in [(0, 'cond'), (2, 'wexit'), (3, 'wtop')]:
        form('B1', 'B', f'br.{name}{hints} {{imm25}}', f'4:4 {OFFSET} {btype}:3 qp:6')
    for btype, name in [(5, 'cloop'), (6, 'cexit'), (7, 'ctop')]:
        form('B2', 'B', f'br.{name}{hints} {{imm25}}', f'4:4 {OFFSET} {btype}:3 0:6')
    form('B3', 'B', f'br.call{hints} b{{b1}}={{imm25}}', f'5:4 {OFFSET} b1:3 qp:6')
    # a branch that is always taken, and is said to be, has no type
    if wh == 0:
        form('B1', 'B', f'br{hints[5:]} {{imm25}}', f'4:4 {OFFSET} 0:3 0:6')
        form('B4', 'B', f'br{hints[5:]} b{{b2}}', f'0:4 -:1 {d}:1 0:2 32:6 -:11 b2:3 {p}:1 -:3 0:3 0:6')
    for x6, btype, name in [(32, 0, 'cond'), (33, 4, 'ret')]:
        form('B4', 'B', f'br.{name}{hints} b{{b2}}', f'0:4 -:1 {d}:1 {wh}:2 {x6}:6 -:11 b2:3 {p}:1 -:3 {btype}:3 qp:6')
    # objdump refuses the undefined hints, which are the even ones
    form('B5', 'B', f'br.call{hints} b{{b1}}=b{{b2}}', f'1:4 -:1 {d}:1 {2 * wh + 1}:3 -:16 b2:3 {p}:1 -:3 b1:3 qp:6')
for ih, imp in enumerate(['', '.imp']):
    for wh, predicted in enumerate(['sptk', 'loop', 'dptk', 'exit']):
        form('B6', 'B', f'brp.{predicted}{imp} {{imm25}},{{imm13}}',
             f'7:4 imm25.24:1 {ih}:1 imm13.11:2 imm25.4:20 imm13.4:7 -:1 {wh}:2 -:3')
        # objdump refuses the undefined hints, which are the odd ones
        if wh in (0, 2):
            for x6, name in [(16, 'brp'), (17, 'brp.ret')]:
                form('B7', 'B', f'{name}.{predicted}{imp} b{{b2}},{{imm13}}',
                     f'2:4 -:1 {ih}:1 imm13.11:2 {x6}:6 -:11 b2:3 imm13.4:7 -:1 {wh}:2 -:3')
form('B8', 'B', 'clrrrb', '0:4 -:4 4:6 -:21 0:6')
form('B8', 'B', 'clrrrb.pr', '0:4 -:4 5:6 -:21 0:6')
form('B9', 'B', 'break.b {u21}', '0:4 u21.20:1 -:3 0:6 -:1 u21:20 qp:6')
form('B9', 'B', 'nop.b {u21}', '2:4 u21.20:1 -:3 0:6 -:1 u21:20 qp:6')

# F, and X, the slot with the L slot below it: 82 bits. As above, bit 26 of a nop makes a hint.
form('F15', 'F', 'break.f {u21}', '0:4 u21.20:1 -:2 0:1 0:6 -:1 u21:20 qp:6')
form('F15', 'F', 'nop.f {u21}', '0:4 u21.20:1 -:2 0:1 1:6 ?:1 u21:20 qp:6')
form('X1', 'X', 'break.x {u62}', '0:4 u62.20:1 0:3 0:6 -:1 u62:20 qp:6 u62.21:41')
form('X1', 'X', 'nop.x {u62}', '0:4 u62.20:1 0:3 1:6 ?:1 u62:20 qp:6 u62.21:41')
form('X2', 'X', 'movl r{r1}={u64}', '6:4 u64.63:1 u64.7:9 u64.16:5 u64.21:1 0:1 u64:7 r1:7 qp:6 u64.22:41')

FORMS_OF = collections.Counter(form.format for form in FORMS)

# By number: the units of the slots, and the slots after which a stop is.
TEMPLATES = {0: ('MII', ''), 1: ('MII', '2'), 2: ('MII', '1'), 3: ('MII', '12'), 4: ('MX', ''), 5: ('MX', '1'), 8: ('MMI', ''),
             9: ('MMI', '2'), 10: ('MMI', '0'), 11: ('MMI', '02'), 12: ('MFI', ''), 13: ('MFI', '2'), 14: ('MMF', ''), 15: ('MMF', '2'),
             16: ('MIB', ''), 17: ('MIB', '2'), 18: ('MBB', ''), 19: ('MBB', '2'), 22: ('BBB', ''), 23: ('BBB', '2'), 24: ('MMB', ''),
             25: ('MMB', '2'), 28: ('MFB', ''), 29: ('MFB', '2')}
# The F unit and the X unit have few forms.
ROUND = [number for number, (units, _) in TEMPLATES.items() for _ in range(1 if set(units) & set('FX') else 3)]


def written(operand, value):
    """The operand as it stands in source text."""
    signed = re.fullmatch(r'imm(\d+)', operand)
    if signed and value >> int(signed[1]) - 1:
        return value - (1 << int(signed[1]))
    return {'cpos': 63 - value, 'len': value + 1, 'sor': 8 * value}.get(operand, value)


def corners_of(mask):
    """The corners of an operand with these bits: of an immediate also the least and the greatest."""
    top = 1 << mask.bit_length() - 1
    return [0, mask, top, mask - top, mask & -mask]


def encoded(form, values, ignored):
    """The bits of the form with these operands, and with these ignored bits."""
    bits = 0
    for operand, start, low, width in form.pieces:
        if operand == '-':
            value = ignored >> low
        else:
            value = values[operand] >> start if operand in values else int(operand.lstrip('?') or 0)
        bits |= value % (1 << width) << low
    return bits


def accepted(form, slot, stops):
    """Whether the assembler takes the form in this slot as it is: alloc only after a stop, clrrrb only before a stop, and the branches of
    loops only in slot 2."""
    if form.format == 'M34':
        return str(slot - 1) in stops
    if form.format == 'B8':
        return str(slot) in stops
    return slot == 2 or form.format != 'B2' and not form.text.startswith(('br.wexit', 'br.wtop'))


class Draw:
    """Instructions, form after form, so that each form of a unit comes as often as another, or more often if its format has few."""

    def __init__(self, seed):
        self.chance = random.Random(seed)
        self.waiting = collections.defaultdict(list)
        self.drawn = collections.Counter()

    def operand(self, mask):
        return self.chance.choice(corners_of(mask)) if self.chance.random() < 0.4 else self.chance.getrandbits(64) & mask

    def form(self, unit, part, slot, stops):
        """The next form of the unit that may stand in the slot."""
        waiting = self.waiting[unit]
        while True:
            for form in waiting:
                if part == 3 or accepted(form, slot, stops):
                    waiting.remove(form)
                    return form
            more = [form for form in FORMS if unit in form.units for _ in range(1 + 4 // FORMS_OF[form.format])]
            self.chance.shuffle(more)
            waiting += more

    def instruction(self, part, unit, slot, stops):
        """A form, its operands, and its ignored bits."""
        form = self.form(unit, part, slot, stops)
        # first each corner of all operands at once, by the assembler and by the table alone
        alike = form.format, tuple(form.operands), part == 3
        number = self.drawn[alike]
        self.drawn[alike] += 1
        if number < 5:
            values = {operand: corners_of(mask)[number] for operand, mask in form.operands.items()}
        else:
            values = {operand: self.operand(mask) for operand, mask in form.operands.items()}
        # the assembler takes no other frames
        if form.format == 'M34' and part < 3:
            values['sof'] = min(values['sof'], 96)
            values['sol'] = min(values['sol'], values['sof'])
            values['sor'] = min(values['sor'], values['sof'] // 8)
        ignored = self.chance.getrandbits(82) if part > 1 else 0
        return form, values, ignored


def source(bundles):
    """Source text of bundles: each a template and instructions."""
    lines = []
    for number, instructions in bundles:
        units, stops = TEMPLATES[number]
        lines.append('{ .' + units.lower().replace('x', 'lx'))
        for slot, (form, values, _) in enumerate(instructions):
            predicate = f'(p{values["qp"]}) ' if 'qp' in values else ''
            operands = {operand: written(operand, value) for operand, value in values.items()}
            operands['outs'] = values.get('sof', 0) - values.get('sol', 0)
            lines.append(predicate + form.text.format(**operands) + (' ;;' if str(slot) in stops else ''))
        lines.append('}')
    return lines


def assembled(folder, lines):
    """What the assembler makes of source text; it puts a stop at the very end."""
    with open(f'{folder}/source.s', 'w') as file:
        file.write('\n'.join(lines + ['{ .mii; nop.m 0; nop.i 0; nop.i 0 ;; }']) + '\n')
    subprocess.run([AS, '-xnone', '-W', 'source.s', '-o', 'object.o'], cwd=folder, check=True)
    subprocess.run([OBJCOPY, '-O', 'binary', '-j', '.text', 'object.o', 'text.bin'], cwd=folder, check=True)
    with open(f'{folder}/text.bin', 'rb') as text:
        return text.read()


def packed(number, instructions, with_ignored):
    """The 16 bytes of a bundle."""
    bits, low = number, 5
    for form, values, ignored in instructions:
        bits |= encoded(form, values, ignored * with_ignored) << low
        low += WIDTHS.get(form.units, 41)
    return bits.to_bytes(16, 'little')


def disassembled(folder, image):
    """objdump's text for each slot, by the address of the bundle and the slot."""
    with open(f'{folder}/image', 'wb') as file:
        file.write(image)
    command = [OBJDUMP, '-D', '-z', '-b', 'binary', '-m', 'ia64', 'image']
    listing = subprocess.run(command, cwd=folder, check=True, capture_output=True, text=True).stdout
    texts = {}
    for line in listing.splitlines():
        found = re.match(r'\s*([0-9a-f]+):\t[0-9a-f ]+\t(?:\[...\])?(.*)', line)
        if found:
            address = int(found[1], 16)
            text = ' '.join(found[2].split())
            texts[address // 16 * 16, address % 16 // 6] = re.sub(r'(mov\.ret [^,]*),0x[0-9a-f]+', r'\1', text)
    return texts


def rest(image, address):
    """The text of slot 2 where slot 1 has an instruction of both."""
    return f'? {int.from_bytes(image[address:address + 16], "little") >> 87:011X}'


def again(image, texts):
    """Source text of an image, from the text of its slots. The assembler takes a number as a target for an offset, and no leading
    zero in a predicate."""
    lines = []
    for address in range(0, len(image), 16):
        units, stops = TEMPLATES[image[address] % 32]
        lines.append('{ .' + units.lower().replace('x', 'lx'))
        for slot in range(len(units)):
            text = re.sub(r'((?:br|chk)\.\S* (?:\w+[=,])?)(0x[0-9a-f]+)$', lambda m: f'{m[1]}{int(m[2], 16) - address}',
                          texts[address, slot].removesuffix(';;'))
            # objdump writes the sizes sof, sol and 8 * sor; the assembler takes inputs, locals, outputs and the rotating part
            text = re.sub(r'(alloc .*),(\d+),(\d+),(\d+)', lambda m: f'{m[1]},0,{m[3]},{int(m[2]) - int(m[3])},{m[4]}', text)
            lines.append(text.replace('(p0', '(p') + (' ;;' if str(slot) in stops else ''))
        lines.append('}')
    return lines


def one_image(name):
    """The lines of one image, which the assembler must make again from them."""
    with open(name, 'rb') as file:
        image = file.read()
    with tempfile.TemporaryDirectory() as folder:
        texts = disassembled(folder, image)
        made = assembled(folder, again(image, texts))
    assert made[:len(image)] == image, f'the assembler does not make {name} again'
    for address in range(0, len(image), 16):
        texts.setdefault((address, 2), rest(image, address))
    return [f'{address:016X} {slot} {text}' for (address, slot), text in sorted(texts.items())]


def every_form():
    draw = Draw(1999)
    templates = []
    bundles = []
    for index in range(BUNDLES):
        part = 1 + (index >= PARTS[0]) + (index >= PARTS[1])
        if not templates:
            templates = ROUND[:]
            draw.chance.shuffle(templates)
        number = templates.pop()
        units, stops = TEMPLATES[number]
        bundles.append((number, [draw.instruction(part, unit, slot, stops) for slot, unit in enumerate(units)]))

    plain = b''.join(packed(number, instructions, 0) for number, instructions in bundles)
    image = b''.join(packed(number, instructions, 1) for number, instructions in bundles)
    with tempfile.TemporaryDirectory() as folder:
        made = assembled(folder, source(bundles[:PARTS[1]]))
        for index in range(PARTS[1]):
            at = slice(16 * index, 16 * index + 16)
            assert made[at] == plain[at], f'the assembler differs from the table: {bundles[index]}'
        texts = disassembled(folder, image)
        without = disassembled(folder, plain)

    counts, seen, lines = collections.Counter(), collections.defaultdict(set), []
    for index, (number, instructions) in enumerate(bundles):
        for slot, (form, values, ignored) in enumerate(instructions):
            text = texts[16 * index, slot]
            assert text == without[16 * index, slot], f'objdump reads an ignored bit: {text}, {without[16 * index, slot]}'
            assert 'data8' not in text, f'objdump refuses {form.text} {values}'
            counts[form.text] += 1
            for operand, value in values.items():
                seen[form.format, operand].add(value)
            lines.append(f'{16 * index:016X} {slot} {text}')
        if 'X' in TEMPLATES[number][0]:
            lines.append(f'{16 * index:016X} 2 {rest(image, 16 * index)}')

    for form in FORMS:
        for operand, mask in form.operands.items():
            assert seen[form.format, operand].issuperset(corners_of(mask)), f'{form.format} has no corner of {operand}'

    print('format  forms  slots  fewest slots of a form')
    for name in sorted(FORMS_OF, key=lambda name: (name[0], int(name[1:]))):
        slots = [counts[form.text] for form in FORMS if form.format == name]
        print(f'{name:6}  {len(slots):5}  {sum(slots):5}  {min(slots):5}')
    print(f'{"all":6}  {len(FORMS):5}  {sum(counts.values()):5}  {min(counts.values()):5}')
    return image, lines


if sys.argv[1] == '--image':
    print('\n'.join(one_image(sys.argv[2])))
else:
    image, lines = every_form()
    with open(f'{sys.argv[1]}/stdin', 'wb') as given:
        given.write(image)
    with open(f'{sys.argv[1]}/stdout', 'w') as expected:
        expected.write('\n'.join(lines) + '\n')
