#!/usr/bin/env python3
"""Writes the cases that crates/replay_parts replays: a line a case, with a space between: the number that the call must answer (0: two parts), the
node as four bytes, the bytes of the result area, the bytes of the sheet, those bytes, how many links the first part has and how many the second,
the bytes of the answer, as sheets.py writes bytes, and what the case is. What is expected comes from parts.py, which follows the text of the
requirements and shares nothing with the library; some answers are held to parts written by hand, and the readings of small machines to those of
their parts.

    python3 tools/part_cases.py > crates/replay_parts/stdin
"""
import itertools, random, struct
from collections import Counter
from math import inf
from drawn_parts import AMISS, OVER, damaged, joined, with_link, with_links, with_node, with_start
from parts import first_part, least_sums, made, outcome, second_part
from products import readings
from sheets import (A, A64, A256, BARRED, CHAIN, E, EMPTY, FINE, LARGEST, LINKS, LONG, NODES, NONE, TRAILER, UNITS, climbing, f, fields, form_of, in_form,
                    input_number, longer, read, sheet, trailer_size, unit_of, with_form, with_word, written)

# what the program has areas for: the bytes of a result, and of a sheet
RESULT, SHEET = 20 * LINKS + 12 * (NODES + 4) + 2 * LONG, 16 * (LINKS + 1) + 12 * (NODES + 1) + LONG

def paired(b, c):
    """the readings of the whole as they are made of one of each part: how many have these labels and this cost"""
    told = Counter()
    for (low, cost), count in readings(first_part(b, c)[0]).items():
        for (high, other), times in readings(second_part(b, c)[0]).items(): told[low + high, cost + other] += count * times
    return told

lines = []
def case(what, b, c, room=None):
    """a case; a result area that is not given is just long enough, or has some bytes where that is refused"""
    if room is None: room = len(made(b, c)[2]) or 60
    k, counts, answer = outcome(b, c, room)
    assert room <= RESULT and len(b) <= SHEET and all(read(written(x, 1)) == x for x in (b, answer))
    if k == 0:
        links, nodes, _ = fields(b)
        assert len(answer) == 20 * len(links) + 12 * (len(nodes) + 1) + 2 * trailer_size(b) and not any(map(input_number, (first_part(b, c)[0], second_part(b, c)[0])))
        if len(b) < 1000: assert readings(b) == paired(b, c)
    first, second = counts or (0, 0)
    lines.append(f'{k} {struct.pack("<I", c).hex()} {room} {len(b)} {written(b, 1)} {first} {second} {written(answer, 1)} # {what}')
    return k, counts, answer

def by_hand(what, b, c, *parts):
    """a case whose answer are these two parts: of each the links, of a label, a weight in sixty-fourths and the node led to, the nodes, of a count and
    perhaps a final weight, the start and the words"""
    answer, unit = b'', unit_of(b)
    for links, nodes, start, words in parts:
        rows = [(label, label, f(weight * 64 / unit), nxt) for label, weight, nxt in links]
        ends = [(node[0], len(node) - 1, f(node[1] * 64 / unit) if node[1:] else 0) for node in nodes]
        answer += sheet(rows, ends, start, form_of(b)) + struct.pack(f'<{len(words)}I', *words)
    assert case(what, b, c) == (0, tuple(len(words) for *_, words in parts), answer), what

def refused(k, what, b, c, *rooms):
    for room in rooms or (RESULT,): assert case(what, b, c, room) == (k, (), b''), what

def passes(what, b, c, first, second):
    k, counts, _ = case(what, b, c)
    assert k == 0 and counts == (first, second), what

def ways(n, links, finals=None, start=0):
    """a sheet of n nodes from (source, label, weight, next), the last node final with 0 unless finals are given"""
    links = sorted(links, key=lambda link: link[0])
    return climbing(n, [(v, weight, nxt) for v, _, weight, nxt in links], start, finals, lambda i: (links[i][1], links[i][1]))

def units(k): return k / 64
def costs(b): return sorted(cost for (_, cost), count in readings(b).items() for _ in range(count))

# ---- three links to node 1, and two on to node 2
DIAMOND = ways(3, [(0, 1, units(100), 1), (0, 2, units(102), 1), (0, 3, units(110), 1), (1, 4, units(11), 2), (1, 5, units(21), 2)])
for form in None, 64, 256:
    by_hand(f'three links to node 1 and two on to node 2, {form}', in_form(DIAMOND, form), 1,
            ([(1, units(100), 1), (2, units(102), 1), (3, units(110), 1)], [(3,), (0, 0)], 0, [0, 1, 2]),
            ([(4, units(11), 1), (5, units(21), 1)], [(2,), (0, 0)], 0, [3, 4]))
LOW, HIGH = (costs(part(DIAMOND, 1)[0]) for part in (first_part, second_part))
assert LOW == [100, 102, 110] and HIGH == [11, 21] and least_sums(2, LOW, HIGH) == [111, 113]
assert least_sums(64, LOW, HIGH) == least_sums(6, LOW, HIGH) == [111, 113, 121, 121, 123, 131] == costs(DIAMOND)

# ---- Sheet A
A_LINKS = [(1, 1, 1), (2, .5, 2), (3, .25, 3), (5, 0, 2), (4, .75, 3)]
for b, so in (A, 'Sheet A'), (A64, 'Sheet A, of unit 64,'), (in_form(A, 256), 'Sheet A in 256ths'):
    by_hand(f'{so} at node 3', b, 3, (A_LINKS, [(2,), (2,), (1,), (0, 0)], 0, range(5)), ([], [(0, .5)], 0, []))
    by_hand(f'{so} at node 0', b, 0, ([], [(0, 0)], 0, []), (A_LINKS, [(2,), (2,), (1,), (0, .5)], 0, range(5)))
assert len(made(A, 3)[2]) == len(made(A, 0)[2]) == 200 and len(made(A256, 3)[2]) == len(made(A64, 0)[2]) == 208
for form, k in (256, 0), (64, 4), (None, 4), (128, 14):
    for c in 0, 1: assert case(f'1/256 and -32 at node {c}, {form}', with_form(FINE, form), c)[0] == k
for c in 1, 2, 4, 5, 2 ** 8, 2 ** 16, 2 ** 24, 2 ** 31, 2 ** 31 + 3, 2 ** 16 + 3, 2 ** 24 + 3, NONE - 1, NONE:
    b = A if c % 2 else A256
    refused(13, f'Sheet A at node {c:,}, {form_of(b) or 64}ths', b, c, 208, 0)
ONE = sheet([], [(0, 1, 0)], 0)
for b, c, so in ((A, 3, 'Sheet A at node 3'), (A256, 0, 'Sheet A at node 0, of unit 256'), (in_form(DIAMOND, 256), 1, 'the diamond in 256ths'),
                 (longer(ONE, 64), 0, 'one node, of unit 64'), (ONE, 0, 'one node')):
    size = len(made(b, c)[2])
    first = size - len(second_part(b, c)[0]) - 4 * made(b, c)[1][1]
    refused(21, f'{so}, a result byte short', b, c, size - 1)
    refused(21, f'{so}, a result word short', b, c, size - 4)
    refused(21, f'{so}, room for the first part', b, c, first, first + 1)
    if len(b) > 40: refused(21, f'{so}, room for the sheets without the words', b, c, size - 4 * sum(made(b, c)[1]))
    refused(21, f'{so}, no result area', b, c, 0)
    for more in 1, 4, 9, 40: assert len(case(f'{so}, a result area longer by {more}', b, c, size + more)[2]) == size

# ---- one node, no nodes, and the start
for weight, form in (0, None), (1, 256), (-LARGEST, None), (LARGEST, 256), (inf, 64):
    by_hand(f'one node, final at {weight}, {form}', in_form(ways(1, [], {0: weight}), form), 0, ([], [(0, 0)], 0, []), ([], [(0, weight)], 0, []))
by_hand('one node, not final', ways(1, [], {}), 0, ([], [(0, 0)], 0, []), ([], [(0,)], 0, []))
for c in 1, 2, NONE: refused(13, f'one node at node {c:,}', ways(1, []), c, 92, 0)
for c in 1, 2, NONE: refused(13, f'one node, not final, at node {c:,}', ways(1, [], {}), c, 92, 104, 0)
for c in 3, 4, NONE: refused(13, f'three nodes, none final, at node {c:,}', ways(3, [(0, 1, 1, 1), (1, 2, 2, 2)], {}), c, 128, 140, 0)
for c in 0, 1, NONE: refused(13, f'no nodes at node {c:,}', EMPTY, c); refused(13, f'no nodes, of unit 256, at node {c:,}', longer(EMPTY, 256), c)
LINE = ways(4, [(0, 1, 1, 1), (1, 2, 2, 2), (2, 3, 3, 3)], {3: 4})
def line(before, after, start): return (([(1, 1, 1), (2, 2, 2), (3, 3, 3)][:before], [(1,)] * before + [(0, 0)], start, range(before)),
                                        ([(v + 1, v + 1, v + 1 - before) for v in range(before, 3)], [(1,)] * after + [(0, 4)], 0, range(before, 3)))
for c in range(4):
    for start in range(c + 1): by_hand(f'four nodes in a line at node {c}, start {start}', in_form(with_start(LINE, start), (None, 64, 256)[(c + start) % 3]), c, *line(c, 3 - c, start))
    for start in range(c + 1, 4): refused(13, f'four nodes in a line at node {c}, start {start}', with_start(LINE, start), c, 164, 0)
    refused(13, f'four nodes in a line at node {c}, no start', with_start(LINE, NONE), c, 164, 0)
refused(13, 'the diamond from node 2, at node 1', with_start(DIAMOND, 2), 1)
passes('the diamond from node 1, at node 1', with_start(DIAMOND, 1), 1, 3, 2)
refused(13, 'the diamond from node 1, at node 0', with_start(DIAMOND, 1), 0)

# ---- marks
FORK = ways(5, [(0, 1, 1, 1), (0, 2, 2, 3), (1, 3, 3, 3), (3, 4, 4, 4), (3, 5, 5, 4)], {3: 6, 4: 7})
FORK_FIRST = [(1, 1, 1), (2, 2, 3), (3, 3, 3)], [(2,), (1,), (0,), (0, 0)], 0, [0, 1, 2]
FORK_LATER = [(4, 4, 1), (5, 5, 1)]
by_hand('node 2 is not reached', FORK, 3, FORK_FIRST, (FORK_LATER, [(2, 6), (0, 7)], 0, [3, 4]))
by_hand('a barred final weight at the node', with_node(FORK, 3, (2, 1, BARRED)), 3, FORK_FIRST, (FORK_LATER, [(2, inf), (0, 7)], 0, [3, 4]))
by_hand('a final weight of 0 at the node', with_node(FORK, 3, (2, 1, 0)), 3, FORK_FIRST, (FORK_LATER, [(2, 0), (0, 7)], 0, [3, 4]))
by_hand('no mark at the node', with_node(FORK, 3, (2, 0, 0)), 3, FORK_FIRST, (FORK_LATER, [(2,), (0, 7)], 0, [3, 4]))
by_hand('no mark', with_node(with_node(FORK, 3, (2, 0, 0)), 4, (0, 0, 0)), 3, FORK_FIRST, (FORK_LATER, [(2,), (0,)], 0, [3, 4]))
by_hand('at the last node', with_node(FORK, 3, (2, 0, 0)), 4,
        ([(1, 1, 1), (2, 2, 3), (3, 3, 3), (4, 4, 4), (5, 5, 4)], [(2,), (1,), (0,), (2,), (0, 0)], 0, range(5)),
        ([], [(0, 7)], 0, []))
refused(13, 'a mark at the last but one, at the last node', FORK, 4)
for v, count, so in (0, 2, 'the start'), (1, 1, 'a reached node'), (2, 0, 'a node that no run reaches'):
    for weight in 0, 6, -LARGEST, inf:
        refused(13, f'a final weight of {weight} at {so} below the node', with_node(FORK, v, (count, 1, f(weight))), 3, 232, 0)

# ---- links
TO, FROM = (1, 1, f(1), 3), (2, 2, f(2), 4)
passes('a link more to the node', with_links(FORK, [(0, *TO)]), 3, 4, 2)
passes('a link more to the node, from one that no run reaches', with_links(FORK, [(2, *TO)]), 3, 4, 2)
passes('a link more from the node on', with_links(FORK, [(3, *FROM)]), 3, 3, 3)
passes('parallel links with equal labels, into the node and out of it', with_links(FORK, [(1, *TO)] * 3 + [(3, *FROM)] * 2), 3, 6, 4)
for v, so in (0, 'the start'), (1, 'a reached node'), (2, 'a node that no run reaches'):
    for weight in 0, -LARGEST, inf:
        refused(13, f'a link of weight {weight} from {so} past the node', with_links(FORK, [(v, 1, 1, f(weight), 4)]), 3, 252, 0)
    passes(f'a barred link from {so} to the node', with_links(FORK, [(v, 1, 1, BARRED, 3)]), 3, 4, 2)
refused(13, 'a link past the node, and no start', with_start(with_links(FORK, [(0, *FROM)]), NONE), 3)
refused(13, 'the last link from below the node leads past it', with_link(FORK, 2, (3, 3, 0, 4)), 3)
refused(13, 'the first leads past it', with_link(FORK, 0, (1, 1, 0, 4)), 3)
by_hand('no link into the node', ways(4, [(0, 1, 1, 1), (2, 2, 2, 3)]), 2,
        ([(1, 1, 1)], [(1,), (0,), (0, 0)], 0, [0]), ([(2, 2, 1)], [(1,), (0, 0)], 0, [1]))
by_hand('no link out of the node', ways(4, [(0, 1, 1, 2)]), 2, ([(1, 1, 2)], [(1,), (0,), (0, 0)], 0, [0]), ([], [(0,), (0, 0)], 0, []))
by_hand('no links', ways(4, [], {2: 1}), 1, ([], [(0,), (0, 0)], 0, []), ([], [(0,), (0, 1), (0,)], 0, []))
UNLIKE = sheet([(NONE, 0, BARRED, 1), (0, NONE, f(-LARGEST), 1), (2 ** 31, 7, f(LARGEST), 2), (7, 2 ** 16, BARRED, 3)],
               [(2, 0, 0), (2, 0, 0), (0, 1, BARRED), (0, 0, 0)], 0)
passes('labels 0 and up to the last, barred links and a barred end', UNLIKE, 1, 2, 2)
passes('E at node 0', E, 0, 0, 4)
passes('E at node 1', E, 1, 2, 2)
for c in 2, 3: refused(13, f'E at node {c}, past final nodes', E, c)

# ---- at the limits
for c, form in (0, None), (1, 64), (NODES // 2, 256), (NODES - 2, None), (NODES - 1, 256): passes(f'the chain of {NODES:,} nodes at node {c:,}, {form or 64}ths', in_form(CHAIN, form), c, c, NODES - 1 - c)
for c in NODES, NODES + 1, 2 ** 31: refused(13, f'the chain of {NODES:,} nodes at node {c:,}', CHAIN, c)
for before in 0, 1, LINKS // 2, LINKS - 1, LINKS:
    passes(f'{before:,} parallel links to the node, of {LINKS:,}', ways(3, [(0, 7, 1, 1)] * before + [(1, 8, 2, 2)] * (LINKS - before)), 1, before,
           LINKS - before)
FULL = in_form(ways(NODES, [(0, 7, 1, 9)] * 9000 + [(9, 8, -1, NODES - 1)] * (LINKS - 9000), {v: 1 for v in range(9, NODES)}), 256)
passes(f'{NODES:,} nodes and {LINKS:,} links', FULL, 9, 9000, LINKS - 9000)
LONGEST = 20 * LINKS + 12 * (NODES + 1) + 2 * LONG
assert len(made(FULL, 9)[2]) == LONGEST
refused(21, f'{NODES:,} nodes and {LINKS:,} links, a result byte short', FULL, 9, LONGEST - 1)
refused(13, f'{NODES:,} nodes and {LINKS:,} links, at node 10', FULL, 10)
refused(13, f'the last of {LINKS:,} links leads past the node', with_link(ways(3, [(0, 1, 1, 1)] * LINKS), LINKS - 1, (1, 1, 0, 2)), 1)

# ---- the order of the refusals: 1, 14, 2 to 6, 13, 21
BROKEN = {1: with_word(A, 24, 2), 14: longer(A, 128), 2: with_word(A, TRAILER + 4, NONE - 1), 3: with_word(A, 19, NONE - 1), 4: with_word(A, 2, 1),
          5: sheet(fields(A)[0], fields(A)[1] + [(0, 0, 0)] * (NODES - 3), 0), 6: with_word(A, 15, 1)}
for k, b in BROKEN.items():
    assert input_number(b) == k
    for c, so in (3, ''), (1, ', and a link past the node'), (0, ', at node 0'), (4, ', and node 4'), (NONE, ', and a node above all'):
        refused(k, f'refused {k}{so}', b, c, RESULT, 0)
    for c in 0, 3:
        if k != 2: refused(k, f'refused {k} at node {c}, and no start', with_start(b, NONE), c)
        if k not in (1, 5): refused(k, f'refused {k} at node {c}, and marks', with_word(b, 21, 1), c)
    if k != 14: refused(14 if k > 1 else 1, f'refused {k}, and unit 128', with_form(b, 128), 3)
    refused(k, f'refused {k}, of the longer trailer', with_form(b, 0 if k == 14 else 256), 3)
for b, so in zip(OVER, (f'{NODES + 1:,} nodes', f'{LINKS + 1:,} links')):
    for c in 1, 0, NODES + 1: refused(5, f'{so}, at node {c:,}', b, c, RESULT, 0)
refused(1, 'no bytes', b'', 0, 60, 0)
refused(1, '19 bytes', EMPTY[1:], 0, 60, 0)
for what, w in ('-0', 0x80000000), ('-infinity', 0xFF800000), ('a NaN', 0x7FC00000), ('a signalling NaN', 0x7F800001), ('a unit too much', f(LARGEST + 1 / 64)), ('1/256', f(1 / 256)):
    for word, kind in (2, 'a link'), (18, 'the last link'), (31, 'a final node'):
        refused(4, f'{kind} of weight {what}, at node 3', with_word(A, word, w), 3)
        refused(4, f'{kind} of weight {what}, at node 1', with_word(A, word, w), 1)
for what, w in ('1/512', f(1 / 512)), ('a unit too much', f((UNITS + 1) / 256)), ('the largest of sixty-fourths', f(LARGEST)):
    for word, kind in (2, 'a link'), (31, 'a final node'): refused(4, f'{kind} of weight {what}, of unit 256', with_word(A256, word, w), 3)
for i in range(TRAILER, TRAILER + 6):
    for w in 1, NONE: case(f'Sheet A, of unit 256, word {i} {w:x}', with_word(A256, i, w), 3)
refused(1, 'a word less of the longer trailer', A256[4:], 3)
refused(1, 'a word more behind the longer trailer', longer(A256, 256), 3)
refused(13, '13, and no result area', A, 1, 0)
refused(13, '13 for the node, and no result area', DIAMOND, 3, 0)
refused(13, '13 for the start, and no result area', with_start(DIAMOND, 2), 1, 0)
refused(13, '13 for a mark, and a result byte short', with_node(DIAMOND, 0, (3, 1, 0)), 1, 175)
refused(21, 'no 13, and a result byte short', DIAMOND, 1, 175)

# ---- drawn ones, with something amiss, and damaged
def some_room(r, b, c):
    size = len(made(b, c)[2])
    return max(0, (size or r.choice((0, 20, 100, 200))) + r.choice((0, 0, 0, 0, 1, 7, 30, -1, -8, -12)))
random.seed(1)
for i in range(180):
    b, c = joined(random, 4, 5)
    case(f'random {i}', b, c, some_room(random, b, c))
for i, how in itertools.product(range(28), AMISS + (damaged, damaged)):
    b, c = how(random, *joined(random, 4, 4))
    case(f'random {i}, {how.__name__.replace("_", " ")}', b, c, some_room(random, b, c))
for i in range(20):
    b, c = joined(random, 9, 14)
    case(f'random, larger {i}', b, c, some_room(random, b, c))

if __name__ == '__main__':
    for line in lines: print(line)
