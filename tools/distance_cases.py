#!/usr/bin/env python3
"""Writes the cases that crates/replay_distances replays: a line a case, with a space between: the number that the call must answer (0: the
distances), the words of the work area, the bytes of the result area, the words of the work area that must be left zero, the bytes of the
sheet, those bytes, the bytes of the answer, as sheets.py writes bytes, and what the case is. What is expected comes from `outcome` below,
which follows the text of the requirements with exact fractions and shares nothing with the library; some answers are held to words worked out
by hand. The last cases are the sheets of oracle/sample.txt, and what is expected of them is what the published Rust answered, its infinity
matched with an unreached node, and its length taken as it is.

    python3 tools/distance_cases.py > crates/replay_distances/stdin
"""
import itertools, random, struct
from fractions import Fraction
from math import inf
from sheets import (A, A64, A256, BARRED, CHAIN, E, EMPTY, FINE, FORMS, LARGEST, LINKS, NODES, NONE, TRAILER, UNITS, climbing, distances, f, fields, in_form,
                    input_number, largest, longer, read, real, sample, sheet, some_barred, unit, with_form, with_word, written)

def value(d):
    """the two words of a distance, None for an unreached node"""
    if d is None: return 0, 0
    bits = f(float(d))
    assert Fraction(real(bits)) == d
    return 1, bits

def count(b):
    """how many nodes an accepted sheet has"""
    return len(fields(b)[1])

def packed(*words): return struct.pack('<%dI' % len(words), *words)

def matched(told):
    """the Rust's distances, 32 weight bits each, as the call writes them: its infinity is an unreached node"""
    return b''.join(packed(0, 0) if bits == BARRED else packed(1, bits) for bits, in struct.iter_unpack('<I', told))

def outcome(b, words, room):
    """the number, how many words of the work area are left zero, and the bytes of the answer"""
    k = input_number(b)
    if k: return k, 0, b''
    n = count(b)
    if words // 8 < n: return 20, 0, b''
    answer = b''.join(packed(*value(d)) for d in distances(b))
    if room < len(answer): return 21, 8 * n, b''
    return 0, 8 * n, answer

lines = []
def case(what, b, words=None, room=None):
    """a case; the areas that are not given are just long enough"""
    n = count(b) if input_number(b) == 0 else 2
    words = 8 * n if words is None else words
    if room is None: room = len(outcome(b, words, 1 << 20)[2])
    k, zeros, answer = outcome(b, words, room)
    assert read(written(b)) == b and read(written(answer)) == answer
    lines.append(f'{k} {words} {room} {zeros} {len(b)} {written(b)} {written(answer)} # {what}')
    return answer

def by_hand(what, b, *words): assert case(what, b) == packed(*words)

HIGH = climbing(5, [(0, 1, 1), (1, -3, 2), (2, 2, 3), (2, 1, 4), (3, -2, 4)], 2)
GAP = climbing(4, [(0, 1, 1), (0, .25, 3), (1, -2, 3), (2, -LARGEST, 3)], 0)
LOW = climbing(5, [(0, 1, 1), (0, 2, 2), (3, 1, 4)], 0)

assert distances(A) == distances(A64) == distances(A256) == [0, 1, Fraction(1, 2), Fraction(5, 4)] and distances(CHAIN) == [LARGEST * v for v in range(NODES)]

by_hand('P1: A', A, 1, 0, 1, 0x3F800000, 1, 0x3F000000, 1, 0x3FA00000)
by_hand('A, of unit 64', A64, 1, 0, 1, 0x3F800000, 1, 0x3F000000, 1, 0x3FA00000)
by_hand('A, of unit 256', A256, 1, 0, 1, 0x3F800000, 1, 0x3F000000, 1, 0x3FA00000)
by_hand('A without a start', with_word(A, TRAILER + 4, NONE))
by_hand('A without a start, of unit 256', with_word(A256, TRAILER + 4, NONE))
case('A without a start, no work area', with_word(A, TRAILER + 4, NONE), 0, 0)
for v in (1, 2, 3): case(f'A, start {v}', with_word(A, TRAILER + 4, v))
case('a start above nodes that have links', HIGH)
by_hand('nodes without links', sheet([], [(0, 0, 0)] * 3, 1), 0, 0, 1, 0)
by_hand('nodes without links, the last the start', sheet([], [(0, 0, 0)] * 3, 2), 0, 0, 0, 0, 1, 0)
case('nodes without links and no start', sheet([], [(0, 0, 0)] * 3, NONE))
case('no nodes', EMPTY); case('no nodes, areas longer', EMPTY, 24, 12)
for form in 64, 256: by_hand(f'no nodes, of unit {form}', longer(EMPTY, form))
case('a node unreached between reached ones', GAP)
by_hand('a node unreached between nodes at 0', climbing(3, [(0, 0, 2)], 0), 1, 0, 0, 0, 1, 0)
by_hand('a link from below the start to it', climbing(3, [(0, 1, 1), (1, 4 / 64, 2)], 1), 0, 0, 1, 0, 1, 0x3D800000)
case('the highest nodes unreached', LOW)
case('the highest nodes unreached, a result as long as for all of them', LOW, room=40)
by_hand('a negative distance', climbing(2, [(0, -1 / 64, 1)], 0), 1, 0, 1, 0xBC800000)
case('negative weights', climbing(4, [(0, -LARGEST, 1), (0, -1 / 64, 2), (1, -LARGEST, 2), (1, LARGEST, 3), (2, -.5, 3)], 0))
case('equal ways', climbing(4, [(0, 1, 1), (0, 1, 2), (1, 2, 3), (2, 2, 3)], 0))
case('a way that comes back to 0', climbing(3, [(0, 1.25, 1), (1, -1.25, 2)], 0))
case('a later link is the lesser', climbing(2, [(0, 3, 1), (0, 2, 1), (0, 2.5, 1)], 0))
for what, b in (('A', A), ('a start above nodes that have links, in 256ths', in_form(HIGH, 256)), ('the highest nodes unreached', LOW), ('no nodes, of unit 64', longer(EMPTY, 64))):
    n, long = count(b), 8 * len(distances(b))
    for w, how in ((8 * n - 8, 'a slot short'), (8 * n - 1, 'a word short'), (0, 'none'), (8 * n, 'exact'), (8 * n + 7, '7 words more'),
                   (8 * n + 8, 'a slot more'), (8 * n + 20, '20 words more')):
        for r, so in ((long - 8, 'a value short'), (long - 4, 'a word short'), (long - 1, 'a byte short'), (0, 'none'), (long, 'exact'),
                      (long + 1, 'a byte more'), (long + 9, '9 bytes more')):
            if w >= 0 and r >= 0: case(f'{what}, work area {how}, result area {so}', b, w, r)

# the grid of 256ths
by_hand('1/256', FINE, 1, 0, 1, 0x3B800000)
by_hand('-1/256', in_form(climbing(2, [(0, -1 / 64, 1)], 0), 256), 1, 0, 1, 0xBB800000)
by_hand('32 and 1/256 of unit 256', climbing(3, [(0, 32, 1), (1, 1 / 256, 2)], 0, form=256), 1, 0, 1, 0x42000000, 1, 0x42000400)
EDGES = 1 / 256, -1 / 256, 3 / 256, 63 / 256, 1 / 64, largest(256), -largest(256), largest(256) - 1 / 256, largest(256) + 1 / 256, 1 / 512, LARGEST
for i, (w, form) in enumerate(itertools.product(EDGES, (256, 64, None))):
    how, b = (('a weight', climbing(2, [(0, w, 1)], 0, form=form)), ('a final weight', climbing(2, [(0, 0, 1)], 0, {1: w}, form=form)))[i % 2]
    case(f'{how} of {w}, {form or 64}ths' + ' by the longer trailer' * (form == 64), b)
# a barred link reaches nothing; the node that it leads to counts where its source is reached
by_hand('E', E, 1, 0, 1, 0x3DA00000, 0, 0)
by_hand('E, in 256ths', in_form(E, 256), 1, 0, 1, 0x3CA00000, 0, 0)
assert len(case('E, longer areas', E, 40, 31)) == 24
by_hand('one barred link', climbing(2, [(0, inf, 1)], 0), 1, 0, 0, 0)
by_hand('its end barred alone', climbing(2, [(0, 1, 1)], 0, {1: inf}), 1, 0, 1, 0x3F800000)
by_hand("the start's own end barred", climbing(1, [], 0, {0: inf}), 1, 0)
by_hand('a barred link beside a finite one', climbing(2, [(0, inf, 1), (0, 2, 1)], 0), 1, 0, 1, 0x40000000)
by_hand('a barred link behind a finite one', climbing(2, [(0, 2, 1), (0, inf, 1)], 0), 1, 0, 1, 0x40000000)
by_hand('a barred link from an unreached node to the highest', climbing(4, [(0, 1, 1), (2, inf, 3)], 0), 1, 0, 1, 0x3F800000)
by_hand('a finite link from an unreached node to the highest', climbing(4, [(0, 1, 1), (2, 1, 3)], 0), 1, 0, 1, 0x3F800000)
by_hand('a barred link from a reached node to the highest', climbing(4, [(0, 1, 1), (1, inf, 3)], 0), 1, 0, 1, 0x3F800000, 0, 0, 0, 0)
by_hand('a link from a node that is only led to', climbing(4, [(0, 1, 1), (1, inf, 2), (2, 1, 3)], 0), 1, 0, 1, 0x3F800000, 0, 0)
by_hand('a barred link from a node that is only led to', climbing(4, [(0, inf, 2), (2, inf, 3)], 0), 1, 0, 0, 0, 0, 0)
by_hand('a barred link to a node that another way reaches', climbing(3, [(0, inf, 2), (0, 1, 1), (1, 1, 2)], 0), 1, 0, 1, 0x3F800000, 1, 0x40000000)
by_hand('a barred link from below the start', climbing(3, [(0, inf, 2), (1, inf, 2)], 1), 0, 0, 1, 0, 0, 0)
by_hand('a barred link from below the start alone', climbing(3, [(0, inf, 2)], 1), 0, 0, 1, 0)
by_hand('barred links and no start', climbing(3, [(0, inf, 1), (1, inf, 2)], NONE, {2: inf}))
for what, b in (('a barred link from a reached node to the highest', climbing(4, [(0, 1, 1), (1, inf, 3)], 0)), ('E', E)):
    long = 8 * len(distances(b))
    for words, room in ((32, long - 1), (32, long - 8), (31, long), (33, long + 3)): case(f'{what}, {words} words, {room} bytes', b, words, room)
SHUT = sheet([(1, 1, f(1), v + 1) for v in range(NODES // 2)] + [(1, 1, BARRED, v + 1) for v in range(NODES // 2, NODES - 1)],
             [(1, 0, 0)] * (NODES - 1) + [(0, 1, BARRED)], 0)
case(f'the chain of {NODES:,} nodes, barred from the middle on', SHUT)
case(f'{LINKS:,} barred links', sheet([(1, 1, BARRED, 1)] * LINKS, [(LINKS, 0, 0), (0, 1, 0)], 0))
for what, w in ('-infinity', 0xFF800000), ('a NaN', 0x7FC00000), ('a signalling NaN', 0x7F800001): case(f'E, its barred link {what}', with_word(E, 6, w))
case('E, infinity where the mark is 0', with_word(E, 18, BARRED)); case('E, the next node of its barred link out of range', with_word(E, 7, 4))
case('E, its barred link to its own node', with_word(E, 7, 0))

WORDS, BYTES = 8 * NODES, 8 * NODES
case(f'P11: the chain of {NODES:,} nodes', CHAIN)
case(f'the chain of {NODES:,} nodes, of unit 256', in_form(CHAIN, 256))
case(f'the chain of {NODES:,} nodes, work area a word short', CHAIN, WORDS - 1, BYTES)
case(f'the chain of {NODES:,} nodes, result area a byte short', CHAIN, WORDS, BYTES - 1)
case(f'P10: {NODES:,} nodes without links, the last the start', sheet([], [(0, 0, 0)] * NODES, NODES - 1))
case(f'P10: {NODES + 1:,} nodes', sheet([], [(0, 0, 0)] * (NODES + 1), 0), WORDS + 16, BYTES + 16)
case(f'{LINKS:,} links', sheet([(1, 1, f(2), 1)] * (LINKS - 1) + [(1, 1, f(-1), 1)], [(LINKS, 0, 0), (0, 1, 0)], 0))
case(f'{LINKS + 1:,} links', sheet([(1, 1, f(2), 1)] * (LINKS + 1), [(LINKS + 1, 0, 0), (0, 1, 0)], 0))
case(f'{NODES + 1:,} nodes and a link that does not climb', sheet([(1, 1, 0, 0)], [(1, 0, 0)] + [(0, 0, 0)] * NODES, 0), WORDS + 16, BYTES + 16)

LONE = climbing(2, [(0, 1, 1)], 0)
REFUSED = [('P6: 19 bytes', EMPTY[1:]), ('no bytes', b''), ('A, a byte short', A[:-1]), ('A, 8 bytes more', A + bytes(8)), ('A, mark 2', with_word(A, 21, 2)),
           ('A, node 0 count 3', with_word(A, 20, 3)), ('A, start 4', with_word(A, TRAILER + 4, 4)), ('A, link 4 next 4', with_word(A, 19, 4)),
           (f'P7: weight {LARGEST + 1 / 64}', with_word(LONE, 2, f(LARGEST + 1 / 64))), ('weight -0', with_word(LONE, 2, 0x80000000)),
           ('final weight -infinity', with_word(A, 31, 0xFF800000)), ('P8: a link to its own node', with_word(A, 15, 1)), ('a link to a lower node', with_word(A, 19, 0)),
           ('start 4 and a link to its own node', with_word(with_word(A, TRAILER + 4, 4), 15, 1)),
           ('a weight off the grid and a link to its own node', with_word(with_word(A, 2, 1), 15, 1)), ('A, its end barred', with_word(A, 31, BARRED))]
LONGER = [('no nodes, of unit 256, less its first byte', longer(EMPTY, 256)[1:]), ('A, of unit 256, less its first word', A256[4:]),
           ('A, of unit 256, and a word more', longer(A256, 256)), ('A, of unit 128', longer(A, 128)), ('A, of unit 128, start 4', with_word(longer(A, 128), TRAILER + 4, 4)),
           ('A, of unit 128, mark 2', with_word(longer(A, 128), 21, 2)), ('A, of unit 256, start 4', with_word(A256, TRAILER + 4, 4)),
           ('1/256, of the shorter trailer', with_form(FINE, None)), ('1/256, of unit 64', with_form(FINE, 64)), ('1/256, of unit 128, start 7', with_word(with_form(FINE, 128), len(FINE) // 4 - 2, 7))]
for i in range(TRAILER, TRAILER + 6):
    for w in (1, 64, NONE): case(f'A, of unit 256, word {i} {w:x}', with_word(A256, i, w))
for w in 0, 63, 65, 128, 255, 257, 512, 64 << 8, 1 << 31, NONE: case(f'A, of unit {w}', longer(A, w))
case('A, of unit 256, less its last word', A256[:-4])
for told, areas in (REFUSED, ((32, 32), (0, 0), (31, 32), (32, 31), (100, 66))), (LONGER, ((0, 0), (100, 66))):
    for (what, b), (w, r) in itertools.product(told, areas): case(f'{what}, {w} words, {r} bytes', b, w, r)

random.seed(1)
def some():
    """a sheet of any weights, half of them with the longer trailer"""
    n, form = random.randint(1, 8), random.choice(FORMS)
    ways = [] if n == 1 else [(v, random.randint(-UNITS, UNITS) / unit(form), random.randint(v + 1, n - 1)) for v in random.choices(range(n - 1), k=random.randint(0, 12))]
    return climbing(n, ways, random.choice([0, 0, 0, random.randrange(n), random.randrange(n), NONE]), form=form)
def areas(b):
    n, long = count(b), 8 * len(distances(b))
    return max(0, 8 * n + random.choice([0, 0, 0, 3, 8, 17, -1])), max(0, long + random.choice([0, 0, 0, 1, 5, 12, -1, -8]))
for i in range(150):
    b = some(); case(f'random {i}', b, *areas(b))
for i in range(50):
    b = some(); w, r = areas(b)
    for _ in range(random.randint(1, 2)):
        j = random.randrange(len(b) // 4)
        b = with_word(b, j, random.choice([0, 1, 2, 7, 8, random.getrandbits(32), NONE, struct.unpack_from('<I', b, 4 * j)[0] ^ 1 << random.randrange(32)]))
    if random.random() < .2: b = b[:-random.randint(1, 16)]
    case(f'random and damaged {i}', b, w, r)
random.seed(3)
for i in range(100):
    b = some_barred(random, some()); case(f'barred at random {i}', b, *areas(b))
for i, (b, _, told, *_) in enumerate(sample()):
    n, told = count(b), matched(told)
    assert outcome(b, 8 * n, len(told)) == (0, 8 * n, told)
    case(f'the Rust {i}', b)
    if i % 10 == 5: case(f'the Rust {i}, longer areas', b, 8 * n + 1 + i % 20, len(told) + 1 + i % 30)
for line in lines: print(line)
