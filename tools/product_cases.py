#!/usr/bin/env python3
"""Writes the cases that crates/replay_products replays: a line a case, with a space between: the number that the call must answer (0: a sheet), the
bytes of the result area, the bytes of the first sheet, those bytes, the bytes of the second, those bytes, the bytes of the answer, as sheets.py
writes bytes, and what the case is. What is expected comes from products.py, which follows the text of the requirements and shares nothing with
the library; some answers are held to sheets worked out by hand, and the readings of small ones to the pairs of readings with the same labels.

    python3 tools/product_cases.py > crates/replay_products/stdin
"""
import itertools, random
from math import inf
from drawn_pairs import damaged_pair, drawn_pair
from products import outcome, paired, readings
from sheets import (A, A64, A256, BARRED, CHAIN, E, EMPTY, FINE, FORMS, LARGEST, LINKS, NODES, NONE, TRAILER, climbing, f, fields, form_of, in_form,
                    input_number, longer, read, sheet, trailer_size, unit, with_form, with_word, written)

# what the program has areas for: the bytes of a result, and of a sheet
RESULT, SHEET = 16 * (LINKS + 1) + 12 * NODES + 20, 16 * (LINKS + 4)

lines = []
def case(what, first, second, room=None):
    """a case; a result area that is not given is just long enough, or has some bytes where that is refused"""
    if room is None: room = len(outcome(first, second, RESULT)[1]) or 60
    k, answer = outcome(first, second, room)
    assert room <= RESULT and max(map(len, (first, second))) <= SHEET and all(read(written(x, 1)) == x for x in (first, second, answer))
    if answer: assert input_number(answer) == 0
    if 0 < len(answer) < 2000: assert readings(answer) == paired(first, second)
    lines.append(f'{k} {room} {len(first)} {written(first, 1)} {len(second)} {written(second, 1)} {written(answer, 1)} # {what}')
    return k, answer

def by_hand(what, first, second, links, nodes, start):
    """a case whose answer is this sheet: links of a label, a weight and the node led to, and nodes of a count and perhaps a final weight"""
    rows = [(label, label, f(weight), nxt) for label, weight, nxt in links]
    answer = sheet(rows, [(node[0], len(node) - 1, f(node[1]) if node[1:] else 0) for node in nodes], start, form_of(first))
    assert case(what, first, second) == (0, answer), what

def refused(k, what, first, second, *rooms):
    for room in rooms or (RESULT,): assert case(what, first, second, room) == (k, b''), what

def passes(what, first, second, size):
    k, answer = case(what, first, second)
    assert k == 0 and len(answer) == size, what

def ways(n, links, finals=None, start=0):
    """a sheet of n nodes from (source, label, weight, next), the last node final with 0 unless finals are given"""
    links = sorted(links, key=lambda link: link[0])
    return climbing(n, [(v, weight, nxt) for v, _, weight, nxt in links], start, finals, lambda i: (links[i][1], links[i][1]))

def one(weight, label=1): return ways(2, [(0, label, weight, 1)])
def bare(n, finals=()): return ways(n, [], dict(finals))
def end(weight): return bare(1, {0: weight})
def units(k): return k / 64
def parallel(count, weight=0, label=1): return ways(2, [(0, label, weight, 1)] * count)
def with_start(b, start): return with_word(b, (len(b) - trailer_size(b)) // 4 + 4, start)
def without_start(b): return with_start(b, NONE)
def labelled(b, l, ilabel, olabel): return with_word(with_word(b, 4 * l, ilabel), 4 * l + 1, olabel)

# ---- two by three nodes: links of labels 7, 7 and 8 to the end, and 8, then 7, from the first node, 7 from the second
TWO = ways(2, [(0, 7, units(1), 1), (0, 7, units(2), 1), (0, 8, units(5), 1)], {1: units(3)})
THREE = ways(3, [(0, 8, units(10), 2), (0, 7, units(20), 1), (1, 7, units(30), 2)], {1: units(100), 2: units(200)})
BOTH_LINKS = [(7, units(21), 4), (7, units(22), 4), (8, units(15), 5), (7, units(31), 5), (7, units(32), 5)]
BOTH_NODES = [(3,), (2,), (0,), (0,), (0, units(103)), (0, units(203))]
by_hand('two by three nodes', TWO, THREE, BOTH_LINKS, BOTH_NODES, 0)
by_hand('three by two nodes', THREE, TWO,
        [(8, units(15), 5), (7, units(21), 3), (7, units(22), 3), (7, units(31), 5), (7, units(32), 5)],
        [(3,), (0,), (2,), (0, units(103)), (0,), (0, units(203))], 0)
BOTH = outcome(TWO, THREE, RESULT)[1]
assert len(BOTH) == 172 and readings(BOTH) == {((7,), 124): 1, ((7,), 125): 1, ((8,), 218): 1}
for first, second, so in ((TWO, THREE, 'two by three nodes'), (A, A, 'A with itself'), (E, E, 'E with itself'), (E, A, 'E with A'), (A, E, 'A with E'),
                          (A, EMPTY, 'A with no nodes')):
    size = len(case(so, first, second)[1])
    refused(21, f'{so}, a result byte short', first, second, size - 1)
    refused(21, f'{so}, a result word short', first, second, size - 4)
    refused(21, f'{so}, no result area', first, second, 0)
    for more in 1, 9, 40: assert len(case(f'{so}, a result area longer by {more}', first, second, size + more)[1]) == size
assert len(outcome(A, A, 292)[1]) == 292 and outcome(A, A, 291) == (21, b'')

# ---- the longer trailer: the answer has the first's
ANSWERS = {unit: [[(label, weight * 64 / unit, nxt) for label, weight, nxt in BOTH_LINKS], [(n, *(w * 64 / unit for w in end)) for n, *end in BOTH_NODES], 0]
           for unit in (64, 256)}
for form, other in (None, 64), (64, None), (64, 64), (256, 256):
    first, second, so = in_form(TWO, form), in_form(THREE, other), f'two by three nodes, {form} and {other}'
    by_hand(so, first, second, *ANSWERS[unit(form)])
    size = len(outcome(first, second, RESULT)[1])
    assert size == 172 + 4 * (form is not None)
    refused(21, f'{so}, a result byte short', first, second, size - 1)
    refused(21, f'{so}, a result word short', first, second, size - 4)
    assert len(case(f'{so}, a result word longer', first, second, size + 4)[1]) == size
    by_hand(f'no nodes, {form} and {other}', in_form(EMPTY, form), second, [], [], NONE)
    by_hand(f'no start in the second, {form} and {other}', first, without_start(second), *ANSWERS[unit(form)][:2], NONE)
    case(f'Sheet A with itself, {form} and {other}', with_form(A, form), with_form(A, other))
assert len(outcome(A256, A256, 296)[1]) == 296 and outcome(A256, A256, 292) == (21, b'')
for form, other in (None, 256), (64, 256), (256, 64), (256, None):
    for b in A, EMPTY: refused(14, f'unequal units, {form} and {other}', with_form(b, form), with_form(b, other), RESULT, 0)
by_hand('1/256 and -32 with 3/256 and 32', FINE, climbing(2, [(0, 3 / 256, 1)], 0, {1: 32}, form=256), [(1, 4 / 256, 3)], [(1,), (0,), (0,), (0, 0)], 0)
refused(12, '1/256 and -32 with itself', FINE, FINE)
for form in 64, None: refused(4, f'1/256 and -32 with itself, {form}', with_form(FINE, form), with_form(FINE, form))

# ---- no nodes, and no start
for b, so in (A, 'A'), (TWO, 'two nodes'), (EMPTY, 'itself'), (CHAIN, f'the chain of {NODES:,} nodes'), (without_start(A), 'A without a start'):
    by_hand(f'no nodes with {so}', EMPTY, b, [], [], NONE)
    by_hand(f'{so} with no nodes', b, EMPTY, [], [], NONE)
by_hand('no start in the first', without_start(TWO), THREE, BOTH_LINKS, BOTH_NODES, NONE)
by_hand('no start in the second', TWO, without_start(THREE), BOTH_LINKS, BOTH_NODES, NONE)
by_hand('no start in both', without_start(TWO), without_start(THREE), BOTH_LINKS, BOTH_NODES, NONE)
for i, j in itertools.product(range(3), range(2)):
    by_hand(f'starts {i} and {j} of three and two nodes', ways(3, [], {2: 1}, i), ways(2, [], {1: 2}, j), [], [(0,)] * 5 + [(0, 3)], 2 * i + j)

# ---- the order of links, of nodes and of labels
LONE = [(0,), (0,), (0,), (0, 0)]
def fanned(*links): return ways(2, [(0, label, units(k), 1) for label, k in links])
def fan(*links): return [(label, units(k), 3) for label, k in links], [(len(links),), *LONE[1:]], 0
PAIRED = fanned((1, 1), (1, 2)), fanned((1, 10), (1, 20), (1, 30))
by_hand('parallel links, two by three', *PAIRED, *fan(*((1, k) for k in (11, 21, 31, 12, 22, 32))))
by_hand('parallel links, three by two', *PAIRED[::-1], *fan(*((1, k) for k in (11, 12, 21, 22, 31, 32))))
assert readings(outcome(*PAIRED, RESULT)[1]) == {((1,), k): 1 for k in (11, 12, 21, 22, 31, 32)}
by_hand('parallel links of one weight, two by three', parallel(2), parallel(3), *fan(*[(1, 0)] * 6))
by_hand('labels of one node in unlike orders', fanned((3, 1), (1, 2), (2, 3), (1, 4)), fanned((1, 10), (2, 20), (1, 30), (3, 40)),
        *fan((3, 41), (1, 12), (1, 32), (2, 23), (1, 14), (1, 34)))
by_hand('a label on one side alone', one(1, 1), one(1, 2), [], LONE, 0)
by_hand('labels 1 and 2, 3 and 2', fanned((1, 1), (2, 2)), fanned((3, 10), (2, 20)), *fan((2, 22)))
by_hand('links of one label to two nodes', ways(3, [(0, 1, 0, 2), (0, 1, 0, 1)], {}), ways(2, [(0, 1, 0, 1)], {}),
        [(1, 0, 5), (1, 0, 3)], [(2,)] + [(0,)] * 5, 0)
by_hand('links of one label from two nodes of each', ways(3, [(0, 1, 0, 1), (1, 1, 0, 2)], {}), ways(4, [(0, 1, 0, 3), (2, 1, 0, 3)], {}),
        [(1, 0, 7), (1, 0, 7), (1, 0, 11), (1, 0, 11)], [(1,), (0,)] * 4 + [(0,)] * 4, 0)
for label in 2 ** 31 - 1, 2 ** 31, NONE, 2 ** 24:
    by_hand(f'label {label}', one(1, label), one(2, label), [(label, 3, 3)], [(1,), *LONE[1:]], 0)
    for other in sorted({label ^ 1 << 31, label ^ 1 << 16, label ^ 1, label - 1} - {0}):
        by_hand(f'labels {label} and {other}', one(1, label), one(2, other), [], LONE, 0)
by_hand('a final node on one side alone', end(1), bare(1), [], [(0,)], 0)
by_hand('no final node', bare(1), bare(1), [], [(0,)], 0)
by_hand('final nodes of three and two', bare(3, {0: 1, 2: 2}), bare(2, {1: 4}), [], [(0,), (0, 5), (0,), (0,), (0,), (0, 6)], 0)

# ---- 10: a label that is 0 or differs, of any link, reached or not
UNLABELLED = [('a label 0', labelled(TWO, 1, 0, 0)), ('input label 0', labelled(TWO, 0, 0, 7)), ('output label 0', labelled(TWO, 0, 7, 0)),
              ('an output label that differs', labelled(TWO, 2, 8, 9)), ('one that differs in its highest bit', labelled(TWO, 2, 8, 8 | 1 << 31)),
              ('the last label 0', labelled(TWO, 2, 0, 0)), ('a label 0 below the start', ways(3, [(0, 0, 1, 2), (1, 1, 1, 2)], None, 1)),
              ('a label 0 and no start', without_start(labelled(TWO, 1, 0, 0))), ('a label 0 on a barred link', one(inf, 0))]
for what, b in UNLABELLED:
    for other, so in (THREE, 'three nodes'), (EMPTY, 'no nodes'), (b, 'itself'):
        refused(10, f'{what} in the first, with {so}', b, other, RESULT, 0)
        refused(10, f'{what} in the second, with {so}', other, b, RESULT, 0)

# ---- 11: above the node limit or the link limit
for n, m, k in ((46, 46, 11), (45, 45, 0), (NODES, 1, 0), (1, NODES, 0), (NODES, 2, 11), (2, NODES, 11), (NODES // 2, 2, 0), (683, 3, 11), (682, 3, 0),
                (NODES, NODES, 11)):
    assert case(f'{n:,} and {m:,} nodes', bare(n), bare(m), RESULT)[0] == k
refused(11, f'{NODES:,} and 2 nodes, no result area', bare(NODES), bare(2), 0)
refused(11, f'{NODES + 1:,} nodes, no start in both', without_start(bare(683)), without_start(bare(3)))
by_hand(f'{NODES:,} and 1 nodes, some final', bare(NODES, {0: 1, 1000: 2, NODES - 1: 3}), end(4), [],
        [(0, 5)] + [(0,)] * 999 + [(0, 6)] + [(0,)] * (NODES - 1002) + [(0, 7)], 0)
by_hand(f'{NODES // 2:,} and 2 nodes, some final', bare(NODES // 2, {0: 1, 500: 2}), bare(2, {1: 4}), [],
        [(0,), (0, 5)] + [(0,)] * 999 + [(0, 6)] + [(0,)] * (NODES - 1002), 0)
by_hand(f'a link over {NODES // 2:,} and 2 nodes', ways(NODES // 2, [(0, 3, 1, NODES // 2 - 1)], {}), one(2, 3),
        [(3, 3, NODES - 1)], [(1,)] + [(0,)] * (NODES - 1), 0)
by_hand(f'the last link over 2 and {NODES // 2:,} nodes', one(2, 3), ways(NODES // 2, [(NODES // 2 - 2, 3, 1, NODES // 2 - 1)], {}),
        [(3, 3, NODES - 1)], [(0,)] * (NODES // 2 - 2) + [(1,)] + [(0,)] * (NODES // 2 + 1), 0)
LONGEST = 16 * LINKS + 12 * 4 + 20
passes('128 and 128 parallel links', parallel(128), parallel(128), LONGEST)
refused(21, '128 and 128 parallel links, a result byte short', parallel(128), parallel(128), LONGEST - 1)
refused(11, '129 and 128 parallel links', parallel(129), parallel(128), RESULT, 0)
refused(11, '128 and 129 parallel links', parallel(128), parallel(129))
passes('128 and 128 parallel links, those of the first apart', fanned(*((1, k) for k in range(128))), parallel(128, units(-5)), LONGEST)
passes(f'{LINKS:,} and 1 parallel links', parallel(LINKS, 1), parallel(1, 2), LONGEST)
passes(f'1 and {LINKS:,} parallel links', parallel(1, -1), parallel(LINKS, 1), LONGEST)
refused(11, f'{LINKS:,} and 2 parallel links', parallel(LINKS, 1), parallel(2, 2))
refused(11, f'2 and {LINKS:,} parallel links', parallel(2, 1), parallel(LINKS, 2))
refused(11, f'{LINKS:,} and {LINKS:,} parallel links', parallel(LINKS), parallel(LINKS))
passes(f'{LINKS:,} and {LINKS:,} parallel links of unlike labels', parallel(LINKS, 0, 1), parallel(LINKS, 0, 2), 68)
passes(f'{LINKS:,} pairs of two labels', fanned(*[(1, 0)] * 127, (2, 0)), fanned(*[(1, 0)] * 129, (2, 0)), LONGEST)
refused(11, f'{LINKS + 1:,} pairs of two labels', fanned(*[(1, 0)] * 127, (2, 0)), fanned(*[(1, 0)] * 129, (2, 0), (2, 0)))
UNREACHED = ways(4, [(1, 1, 0, 2)] * 129, None, 3), ways(4, [(0, 1, 0, 2)] * 128, None, 3)
refused(11, '129 and 128 links that no run reaches', *UNREACHED)
refused(11, '129 and 128 links, no start in both', *map(without_start, UNREACHED))
refused(11, '144 and 120 links of some nodes', ways(17, [(v, 1, 0, 16) for v in range(16)] * 9), ways(9, [(v, 1, 0, 8) for v in range(8)] * 15))

# ---- 12: a finite sum off the grid
STEP, HALF = units(1), LARGEST / 2
SUMS = [(12, LARGEST, STEP), (12, -LARGEST, -STEP), (12, LARGEST, LARGEST), (12, -LARGEST, -LARGEST), (0, LARGEST, 0), (0, -LARGEST, 0), (0, LARGEST, -STEP),
        (0, HALF, HALF), (12, HALF, HALF + STEP), (0, -HALF, -HALF), (12, -HALF - STEP, -HALF), (0, LARGEST, -LARGEST), (0, 1, -1), (0, 0, 0), (0, -STEP, STEP),
        (0, inf, -LARGEST), (0, inf, LARGEST), (0, inf, inf), (0, inf, 0), (0, 100, 28), (12, 100, 28 + STEP)]
for i, (k, a, b) in enumerate(SUMS):
    for x, y in dict.fromkeys(((a, b), (b, a))):
        for kind, how in (one, 'links'), (end, 'final weights'):
            form = FORMS[i % 4]
            got, answer = case(f'{how} of {x} and {y}, {form or 64}ths', in_form(kind(x), form), in_form(kind(y), form), RESULT)
            assert got == k and (k or fields(answer)[kind is end][0][2] == (BARRED if inf in (a, b) else f((a + b) * 64 / unit(form))))
by_hand('links of 128 and -128', one(LARGEST), one(-LARGEST), *fan((1, 0)))
by_hand('a barred link and one of -128', one(inf), one(-LARGEST), [(1, inf, 3)], [(1,), *LONE[1:]], 0)
by_hand('a barred final weight and one of -128', end(inf), end(-LARGEST), [], [(0, inf)], 0)
refused(12, 'final weights of 100 and 100 that no run reaches', bare(3, {1: 100}), bare(3, {0: 1, 2: 100}), RESULT, 0)
refused(12, 'final weights of 100 and 100, no start in both', without_start(end(100)), without_start(end(100)))
refused(12, 'links of 100 and 100 that no run reaches', ways(3, [(1, 4, 100, 2)]), ways(3, [(0, 1, 1, 1), (1, 4, 100, 2)]))
refused(12, 'links of 100 and 100 of unlike nodes', ways(3, [(1, 4, 100, 2)]), one(100, 4))
refused(12, 'a barred pair, and links of 100 and 100', ways(2, [(0, 1, inf, 1), (0, 1, 100, 1)]), one(100))
refused(12, 'the last of some pairs', ways(2, [(0, 1, 1, 1), (0, 2, 100, 1)]), ways(2, [(0, 1, 1, 1), (0, 2, 2, 1), (0, 2, 28 + STEP, 1)]))
refused(12, 'the last of some final weights', bare(3, {0: 1, 2: 100}), bare(2, {0: 2, 1: 29}))
passes('links of 100 and 100 with unlike labels', one(100, 1), one(100, 2), 68)
passes('final weights of 100 and 28', bare(2, {0: 100}), bare(2, {1: 28}), 68)

# ---- the order of the refusals: 1, 14, 2 to 6 of the first, then of the second, where 14 is of unequal units, too; 10, 11, 12, 21
def large(b): return sheet(fields(b)[0], fields(b)[1] + [(0, 0, 0)] * (NODES - 3), 0)
BROKEN = {1: with_word(A, 24, 2), 14: longer(A, 128), 2: with_word(A, TRAILER + 4, NONE - 1), 3: with_word(A, 19, NONE - 1), 4: with_word(A, 2, 1), 5: large(A),
          6: with_word(A, 15, 1)}
ZEROS = labelled(A, 4, 0, 0)
for k, b in BROKEN.items():
    assert input_number(b) == k
    refused(k, f'refused {k}: the first', b, A, RESULT, 0)
    refused(k, f'refused {k}: the second', A, b, RESULT, 0)
    refused(k, f'refused {k}: the first, and 10 for the second', b, ZEROS)
    refused(k, f'refused {k}: the second, and 10 for the first', ZEROS, b)
    refused(k, f'refused {k}: the second, the first without nodes', EMPTY, b)
    refused(k, f'refused {k}: the first with itself', b, b)
for k, j in itertools.permutations(BROKEN, 2): refused(k, f'refused {k}: the first, and {j} for the second', BROKEN[k], BROKEN[j])
for k, b in BROKEN.items():
    finer = with_form(b, 128 if k == 14 else 256)
    refused(k, f'refused {k}: the first, and unequal units', finer, A)
    refused(k, f'refused {k}: the first of unit 256, and 10 for the second', finer, with_form(ZEROS, 256))
    refused(1 if k == 1 else 14, f'refused {k}: the second, and unequal units', A, finer, RESULT, 0)
    refused(k, f'refused {k}: the second, both of unit 256', A256, finer)
refused(14, 'unequal units, and 10 for both', ZEROS, with_form(ZEROS, 256))
refused(14, 'unequal units, and 12', one(100), with_form(one(0), 256))
for w in 0, 63, 257, 64 << 8, NONE:
    refused(14, f'the first of unit {w}', longer(A, w), A)
    refused(14, f'the second of unit {w}', A, longer(A, w))
refused(1, 'a word less in the first', A64[4:], A)
refused(1, 'a word more in the second', A, longer(A64, 64))
refused(5, f'{LINKS + 1:,} links in the first', parallel(LINKS + 1), A)
refused(5, f'{LINKS + 1:,} links in the second', A, parallel(LINKS + 1))
refused(1, 'no bytes in the first', b'', A, 60, 0)
refused(1, 'no bytes in the second', A, b'', 60, 0)
for what, w in (('-0', 0x80000000), ('-infinity', 0xFF800000), ('a NaN', 0x7FC00000), ('a signalling NaN', 0x7F800001), (f'{LARGEST + STEP}', f(LARGEST + STEP))):
    for word, kind in (2, 'a link'), (31, 'a final node'):
        refused(4, f'{kind} of weight {what} in the first', with_word(A, word, w), A)
        refused(4, f'{kind} of weight {what} in the second', A, with_word(A, word, w))
FAR, HEAVY = ways(683, [(0, 1, 100, 682)]), ways(3, [(0, 1, 100, 2)])
refused(12, '12, no result area', ways(682, [(0, 1, 100, 681)]), HEAVY, RESULT, 0)
refused(11, '11 for nodes, and 12', FAR, HEAVY, RESULT, 0)
refused(11, '11 for links, and 12', parallel(129, 100), parallel(128, 100), RESULT, 0)
refused(10, '10, and 11 and 12', labelled(FAR, 0, 0, 0), HEAVY, RESULT, 0)
refused(10, '10 for the second, and 11 and 12', FAR, labelled(HEAVY, 0, 1, 2), RESULT, 0)
refused(10, '10 for a link of many, and 11 and 12', parallel(129, 100), labelled(parallel(128, 100), 127, 1, 2), RESULT, 0)
refused(10, '10, and 12', labelled(TWO, 0, 0, 0), ways(2, [(0, 7, 128, 1)], {1: 128}), RESULT, 0)
refused(10, '10 behind a link of 12', ways(2, [(0, 1, 100, 1), (0, 0, 1, 1)]), one(100))

# ---- drawn ones, and damaged ones
def some_room(r, first, second):
    size = len(outcome(first, second, RESULT)[1])
    return max(0, (size or r.choice((0, 20, 100))) + r.choice((0, 0, 0, 0, 1, 7, 30, -1, -12)))
random.seed(1)
for i in range(205):
    pair = drawn_pair(random, 4, 4)
    case(f'random {i}', *pair, some_room(random, *pair))
for i in range(90):
    pair = damaged_pair(random, *drawn_pair(random, 4, 3))
    case(f'random and damaged {i}', *pair, some_room(random, *pair))
for i in range(18):
    pair = drawn_pair(random, 8, 14)
    case(f'random, larger {i}', *pair, some_room(random, *pair))

if __name__ == '__main__':
    for line in lines: print(line)
