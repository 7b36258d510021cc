#!/usr/bin/env python3
"""Writes the cases that crates/replay_sheets replays: a line a case, the number that reading must answer (0: accepted), the bytes in
hexadecimal, the fields of the links that a link reader must give (-: none), and what the case is. The numbers come from `read_number` of
sheets.py, which follows the text of the requirements with exact fractions and shares nothing with the library.

    python3 tools/sheet_cases.py > crates/replay_sheets/stdin
"""
import itertools, random, struct
from sheets import (A, A256, BARRED, E, EMPTY, FINE, LARGEST, NONE, SHORT, f, fields, largest, longer, read_number, sheet, some_barred, trailer_size,
                    with_form, with_word)

ONE = sheet([], [(0, 1, f(-2))], 0)
TWO = sheet([(7, 9, f(3), 1)], [(1, 0, 0), (0, 1, f(1))], 0)
LOOP = sheet([(1, 1, f(1), 0), (2, 2, f(2), 0)], [(2, 1, 0), (0, 0, 0)], 1)
BASES = [('A', A), ('empty', EMPTY), ('one node', ONE), ('two nodes', TWO), ('links that do not climb', LOOP)]
# of the longer trailer
TWO256 = longer(TWO, 256)
LONG = [('A in 256ths', A256), ('empty, of unit 256', longer(EMPTY, 256)), ('one node, of unit 64', longer(ONE, 64)), ('two nodes in 256ths', TWO256), ('one 256th', FINE)]

# the largest weight and its neighbours on the grid, on both sides of 0; weights that were off the grid when 64 was the largest; and others
GRID = [f(LARGEST), f(LARGEST + 1 / 64), f(-LARGEST), f(-LARGEST - 1 / 64), f(LARGEST - 1 / 64), f(LARGEST) + 1, f(64 + 1 / 64), f(-64 - 1 / 64), f(64) + 1,
        f(1 / 64), f(-1 / 64), f(1 / 128), f(3 / 128), 0x3dcccccd,
        f(262144), 0, 0x80000000, 1, 0x807fffff, 0x7f7fffff, 0x7f800000, 0xff800000, 0x7fc00000, 0x7f800001, NONE]

# the same in 256ths, and the largest weight of sixty-fourths
MOST = largest(256)
FINEST = [f(MOST), f(MOST + 1 / 256), f(-MOST), f(-MOST - 1 / 256), f(MOST - 1 / 256), f(MOST) + 1, f(MOST) - 1, f(LARGEST), f(1 / 256), f(-1 / 256), f(3 / 256),
          f(1 / 64), f(1 / 512), f(3 / 512), 0x3dcccccd, 0, 0x80000000, 1, BARRED, 0xff800000, 0x7fc00000, 0x7f800001, NONE]

def name(b, i):
    links, nodes, _ = fields(b)
    t, n = len(links), len(nodes)
    if i < 4 * t: return f"link {i // 4} {['input label', 'output label', 'weight', 'next'][i % 4]}"
    if i < 4 * t + 3 * n: return f"node {(i - 4 * t) // 3} {['count', 'mark', 'weight'][(i - 4 * t) % 3]}"
    return ['link offset', 'node offset', 'node count', 'link count', 'start', 'unit'][i - 4 * t - 3 * n]

def bad(b, i):
    """a value that breaks field i, or for a label one that does not"""
    w = struct.unpack_from('<I', b, 4 * i)[0]
    what = name(b, i)
    if 'mark' in what: return 2
    if 'weight' in what: return 0x7fc00000
    if 'next' in what or what == 'start': return 77
    return w + 1 & NONE

def given(b):
    """the links that a reader gives: those that the trailer states, where they lie before it; a weight that is no number has one pattern"""
    size = trailer_size(b) or SHORT
    if len(b) < size: return []
    t = struct.unpack_from('<I', b, len(b) - size + 12)[0]
    if 16 * t + size > len(b): return []
    links = [struct.unpack_from('<4I', b, 16 * l) for l in range(t)]
    return [(i, o, 0x7fc00000 if w & 0x7fffffff > 0x7f800000 else w, v) for i, o, w, v in links]

def packed(links): return b''.join(struct.pack('<4I', *l) for l in links).hex() or '-'

cases = []
def case(what, b): cases.append((read_number(b), b, what))

for n in range(41):
    case(f'{n} zero bytes', bytes(n)); case(f'{n} bytes of FF', b'\xff' * n)
case('P6: 19 bytes', EMPTY[1:])
for what, b in BASES + LONG:
    case(what, b)
    for short in (1, 2, 4, 12, 16): case(f'{what}, {short} short at its end', b[:-short]); case(f'{what}, {short} short at its front', b[short:])
    for more in (1, 4, 12, 16): case(f'{what}, {more} more at its end', b + bytes(more)); case(f'{what}, {more} more at its front', bytes(more) + b)
    for i in range(len(b) // 4):
        w = struct.unpack_from('<I', b, 4 * i)[0]
        for v in sorted({0, 1, 2, w + 1 & NONE, w - 1 & NONE, w ^ 0x80000000, bad(b, i), NONE} - {w}):
            if len(b) >= len(A) and v not in (0, bad(b, i), NONE): continue
            case(f'{what}, {name(b, i)} {v:08x}', with_word(b, i, v))
for b, what in ((TWO, 'two nodes'), (TWO256, 'two nodes in 256ths')):
    for i, j in itertools.combinations(range(len(b) // 4), 2):
        case(f'{what}, {name(b, i)} and {name(b, j)} broken', with_word(with_word(b, i, bad(b, i)), j, bad(b, j)))
random.seed(1)
for i, j in random.sample(list(itertools.combinations(range(len(A) // 4), 2)), 60):
    case(f'A, {name(A, i)} and {name(A, j)} broken', with_word(with_word(A, i, bad(A, i)), j, bad(A, j)))
for i, j in itertools.product(range(5), range(5)):
    case(f'A, weight of link {i} and next node of link {j} broken', with_word(with_word(A, 4 * i + 2, 0x7fc00000), 4 * j + 3, 77))
    if j < 4: case(f'A, weight of link {i} and mark of node {j} broken', with_word(with_word(A, 4 * i + 2, 0x7fc00000), 21 + 3 * j, 2))
for w in GRID:
    case(f"{'P7: ' if w in GRID[:2] else ''}two nodes, link weight {w:08x}", with_word(TWO, 2, w))
    case(f'two nodes, final weight {w:08x}', with_word(TWO, 9, w))
    case(f'two nodes, weight {w:08x} where the mark is 0', with_word(TWO, 6, w))
case('E: barred links and a barred end', E)
for l in range(5): case(f'A, link {l} barred', with_word(A, 4 * l + 2, BARRED))
case('A, its end barred', with_word(A, 31, BARRED))
case('one node, its end barred', with_word(ONE, 2, BARRED))
case('links that do not climb, both barred', with_word(with_word(LOOP, 2, BARRED), 6, BARRED))
for w in (0xff800000, 0x7fc00000, 0x7f800001, 0x7f7fffff, 0x7f900000, 0xff800001, BARRED - 1, BARRED):
    case(f'E, weight {w:08x} on its last link', with_word(E, 14, w)); case(f'E, weight {w:08x} at its last end', with_word(E, 27, w))
    case(f'E, weight {w:08x} where the mark is 0', with_word(E, 18, w))
    case(f'E, next node out of range on its barred link, and weight {w:08x} before', with_word(with_word(E, 7, 4), 2, w))
case('two nodes, its link barred and its next node out of range', with_word(with_word(TWO, 2, BARRED), 3, 2))
case('two nodes, its link barred and the start out of range', with_word(with_word(TWO, 2, BARRED), len(TWO) // 4 - 1, 2))
case('two nodes, its end barred, and mark 2', with_word(with_word(TWO, 9, BARRED), 8, 2))
for i in range(40):
    b = some_barred(random, random.choice(BASES)[1] if i % 2 else E)
    j = random.randrange(len(b) // 4)
    case(f'barred at random {i}', b); case(f'barred at random {i}, {name(b, j)} broken', with_word(b, j, bad(b, j)))
t = len(TWO) // 4 - 2
for v in (1 << 28, 1 << 29, 1 << 31, (1 << 28) + 1): case(f'two nodes, link count {v:x}: 16 times it wraps', with_word(with_word(TWO, t, v), t - 2, 16 * v & NONE))
for v in (1 << 30, (1 << 30) + 2, 0x55555557): case(f'two nodes, node count {v:x}: 12 times it wraps', with_word(TWO, t - 1, v))
case('two nodes, counts that sum past 2^32', with_word(with_word(TWO, 4, 1 << 31), 7, (1 << 31) + 1))
case('two nodes, counts 0 and 1', with_word(with_word(TWO, 4, 0), 7, 1))
STATED = sheet([(1, 2, f(3), 4)], [], NONE)
case('a link and no nodes: refused, and a reader gives the link', STATED)
case('one link stated, and a byte too few before the trailer', STATED[1:])
case('two links stated, and room for one', with_word(STATED, len(STATED) // 4 - 2, 2))
# the trailer of six fields
for what, b in BASES:
    for unit in (64, 256, 128, 0, 1, 63, 65, 255, 257, 512, 64 << 8, NONE): case(f'{what}, of unit {unit}', longer(b, unit))
for what, b in LONG:
    case(f'{what}, less its last word', with_form(b, None)); case(f'{what}, a word more', longer(b, 256))
    for unit in (64, 128): case(f'{what}, of unit {unit}', with_form(b, unit))
assert [read_number(with_form(FINE, form)) for form in (256, 64, None, 128)] == [0, 4, 4, 14]
assert read_number(with_word(with_form(FINE, 128), len(FINE) // 4 - 2, 7)) == 14
case('one 256th, of unit 128, start 7', with_word(with_form(FINE, 128), len(FINE) // 4 - 2, 7))
for form, so in ((64, 'of unit 64'), (128, 'of unit 128'), (None, 'of the shorter trailer')):
    b = with_form(FINE, form)
    for i in range(len(b) // 4): case(f'one 256th, {so}, {name(b, i)} broken', with_word(b, i, bad(b, i)))
for w in GRID + FINEST:
    for unit in (64, 256):
        case(f'two nodes, of unit {unit}, link weight {w:08x}', with_word(longer(TWO, unit), 2, w))
        case(f'two nodes, of unit {unit}, final weight {w:08x}', with_word(longer(TWO, unit), 9, w))
for w in FINEST: case(f'two nodes, link weight {w:08x}', with_word(TWO, 2, w)); case(f'two nodes, final weight {w:08x}', with_word(TWO, 9, w))
case('two nodes in 256ths, counts that sum past 2^32', with_word(with_word(TWO256, 4, 1 << 31), 7, (1 << 31) + 1))
# offsets and counts of one trailer, and the length of the other
case('A of unit 256, a word less before its trailer', A256[:80] + A256[84:])
case('A, a word more before its trailer', A[:-20] + bytes(4) + A[-20:])
LONGER = sheet([(1, 2, f(3), 4)], [], NONE, 256)
case('a link and no nodes, of unit 256: refused, and a reader gives the link', LONGER)
case('one link stated, of unit 256, and a byte too few before the trailer', LONGER[1:])
case('two links stated, of unit 256, and room for one', with_word(LONGER, len(LONGER) // 4 - 3, 2))
for i in range(30):
    b = longer(some_barred(random, random.choice(BASES)[1]), random.choice((64, 256, 256, 128)))
    j = random.randrange(len(b) // 4)
    case(f'of the longer trailer at random {i}', b); case(f'of the longer trailer at random {i}, {name(b, j)} broken', with_word(b, j, bad(b, j)))
seen, out = set(), []
for k, b, what in cases:
    if b not in seen: seen.add(b); out.append((k, b, what))
for k, b, what in out: print(k, b.hex() or '-', packed(given(b)), '#', what)
