#!/usr/bin/env python3
"""Writes the cases that crates/replay_lists replays: a line a case, with a space between: the number that the call must answer (0: a list), n,
the words of the work area, the bytes of the result area, the words of the work area that must be left zero, the nodes and links of the list's
machine and the entries taken, the bytes of the sheet, those bytes, the bytes of the answer, as sheets.py writes bytes, and what the case is.
What is expected comes from `outcome` below, which follows the text of the requirements and shares nothing with the library. Of small sheets
each list is held to all readings, too. The last cases are the sheets of oracle/sample.txt, and what is expected of them is what the published
Rust answered, or where it listed infinite readings, which are none here, what the same search answers without them.

    python3 tools/list_cases.py > crates/replay_lists/stdin
"""
import functools, itertools, random, struct
from collections import Counter
from fractions import Fraction
from search_oracle import INF, Search
from sheets import (A, A64, A256, BARRED, CHAIN, E, EMPTY, FINE, FORMS, LARGEST, LINKS, NODES, NONE, TRAILER, UNITS, climbing, distances, f, fields, form_of,
                    in_form, input_number, longer, read, real, sample, sheet, some_barred, sources, trailer_size, unit_of, with_form, with_word, written)

def units(bits, unit): return INF if bits == BARRED else int(unit * Fraction(real(bits)))

def with_start(b, start): return with_word(b, (len(b) - trailer_size(b)) // 4 + 4, start)

def slots(b, n):
    """the work slots needed"""
    links, nodes, _ = fields(b)
    if n < 2: return n * len(nodes)
    return len(nodes) + len(links) + 2 * sum(mark for _, mark, _ in nodes) + 2 + n * (len(links) + 1)

def best(b):
    """the lowest final node of the least total, and the links that lead to it from the start, the last first; None without a reading"""
    links, nodes, start = fields(b)
    least = distances(b) + [None] * len(nodes)
    ends = [(least[v] + Fraction(real(bits)), v) for v, (_, mark, bits) in enumerate(nodes) if mark and bits != BARRED and least[v] is not None]
    if not ends: return None
    into = {}
    for l, (v, (_, _, bits, nxt)) in enumerate(zip(sources(nodes), links)):
        if least[v] is not None and bits != BARRED and least[v] + Fraction(real(bits)) == least[nxt]: into.setdefault(nxt, (l, v))
    end = v = min(ends)[1]
    way = []
    while v != start:
        l, v = into[v]
        way.append(l)
    return end, way

def all_readings(b):
    """the links of each reading, with its cost in units"""
    (links, nodes, start), unit = fields(b), unit_of(b)
    ways = [[((), 0)] if v == start else [] for v in range(len(nodes))]
    for l, (v, (_, _, bits, nxt)) in enumerate(zip(sources(nodes), links)): ways[nxt] += [(way + (l,), k + units(bits, unit)) for way, k in ways[v]]
    ends = [(v, units(bits, unit)) for v, (_, mark, bits) in enumerate(nodes) if mark]
    return {way: k + end for v, end in ends for way, k in ways[v] if k + end < INF}

def listed(n, links, answer):
    """the links of each reading that an answer holds, with its cost in units: read from its bytes"""
    whole = answer[:len(answer) - 4 * links]
    (rows, nodes, start), unit = fields(whole), unit_of(whole)
    words, out = struct.unpack('<%dI' % links, answer[len(answer) - 4 * links:]), [[] for _ in nodes]
    for l, v in enumerate(sources(nodes)): out[v].append(l)
    def followed(way, v):
        while out[v]:
            way, v = way + out[v], rows[out[v][0]][3]
        assert nodes[v][1] == 1
        return tuple(words[l] for l in way if words[l] != NONE), sum(units(rows[l][2], unit) for l in way) + units(nodes[v][2], unit)
    if start == NONE: return []
    return [followed([], start)] if n == 1 else [followed([l], rows[l][3]) for l in out[start]]

def hold(b, n, readings):
    """a list of a small sheet has different readings, of the least costs, in order"""
    costs = all_readings(b)
    assert all(costs[way] == k for way, k in readings) and [k for _, k in readings] == sorted(costs.values())[:n] and len(dict(readings)) == len(readings)

@functools.lru_cache(None)
def made(b, n, as_rust=False):
    """the nodes and links of the list's machine, the entries taken, and the bytes of the answer, under the sheet's trailer; as_rust: with the
    infinite readings of the Rust"""
    (links, nodes, start), unit = fields(b), unit_of(b)
    rows, marks, first, words, taken = [], [], NONE, [], 0
    if n == 1 and best(b):
        end, words = best(b)
        rows, marks, first = [(*links[l][:3], q) for q, l in enumerate(words)], [(0, 1, nodes[end][2])] + [(1, 0, 0)] * len(words), len(words)
    if n > 1 and best(b):
        ways = [(v, units(bits, unit), nxt) for v, (_, _, bits, nxt) in zip(sources(nodes), links)]
        _, _, taken, ways = Search(ways, [units(bits, unit) if mark else None for _, mark, bits in nodes], start, n, as_rust).run()
        rows = [(*((0, 0) if l is None else links[l][:2]), f(w / unit), q) for _, q, w, l in ways]
        counts = Counter(q for q, _, _, _ in ways)
        marks, first = [(counts[q], int(q == 1), 0) for q in range(1 + max(counts))], 0
        words = [NONE if l is None else l for _, _, _, l in ways]
    answer = sheet(rows, marks, first, form_of(b)) + struct.pack('<%dI' % len(words), *words)
    if len(b) < 400: hold(b, n, [reading for reading in listed(n, len(rows), answer) if reading[1] < INF])
    return len(marks), len(rows), taken, answer

def outcome(b, n, words, room):
    """the number, how many words of the work area are left zero, the three counts, and the bytes of the answer"""
    k = input_number(b) or (7 if n > 64 else 0)
    if not k and words // 8 < slots(b, n): k = 20
    if k: return k, 0, 0, 0, 0, b''
    *counts, answer = made(b, n)
    if room < len(answer): return 21, 8 * slots(b, n), 0, 0, 0, b''
    return 0, 8 * slots(b, n), *counts, answer

# what the program has areas for, in words and bytes
WORK, RESULT = 8 * (3 * LINKS + 12), 32 * (NODES + 4)

lines = []
def case(what, b, n, words=None, room=None):
    """a case; the areas that are not given are just long enough"""
    if words is None: words = 8 * slots(b, n) if input_number(b) == 0 else 4000
    if room is None: room = len(made(b, n)[3]) if input_number(b) == 0 and n < 65 else 1000
    k, zeros, *counts, answer = outcome(b, n, words, room)
    assert words <= WORK and room <= RESULT and all(read(written(x, 1)) == x for x in (b, answer))
    lines.append(f'{k} {n} {words} {room} {zeros} {counts[0]} {counts[1]} {counts[2]} {len(b)} {written(b, 1)} {written(answer, 1)} # {what}')
    return k

def readings(b, n): return listed(n, made(b, n)[1], made(b, n)[3])

def labels(b, n): return [[fields(b)[0][l][0] for l in way] for way, _ in readings(b, n)]

TWICE = climbing(3, [(0, 0, 1)] * 2 + [(1, 0, 2)] * 3, 0)
assert labels(A, 1) == [[1, 3]] and labels(A, 2) == [[1, 3], [2, 4]] and made(A, 2)[2] == 8
assert [k for _, k in readings(A, 3)] == [112, 112, 144] and labels(A, 3)[2] == [1, 5, 4] and made(A, 3)[2] == 11
assert len(readings(A, 4)) == 3 and made(A, 4)[2] == 11
assert [way for way, _ in readings(TWICE, 1)] == [(0, 2)] and [way for way, _ in readings(TWICE, 2)] == [(1, 2), (0, 3)]
for n in (1, 2): assert readings(CHAIN, n) == [(tuple(range(NODES - 1)), NODES * UNITS)]
for n, taken, size in (1, 0, 64), (2, 13, 160), (3, 16, 160), (64, 19, 160):
    assert readings(E, n) == [((0,), 6)] and made(E, n)[2] == taken and len(made(E, n)[3]) == size
# the longer trailer: costs in its unit, and its bytes in each answer
assert len(A64) == len(A256) == 152 and len(longer(EMPTY, 64)) == 24
assert [k for _, k in readings(A256, 3)] == [448, 448, 576] and [k for _, k in readings(A64, 3)] == [112, 112, 144]
for n in range(65):
    for b in A64, A256: assert len(made(b, n)[3]) == len(made(A, n)[3]) + 4 and labels(b, n) == labels(A, n) and made(b, n)[2] == made(A, n)[2]
    for form in 64, 256: assert made(longer(EMPTY, form), n) == (0, 0, 0, longer(EMPTY, form))
for n in (1, 2): assert readings(FINE, n) == [((0,), 1 - UNITS)] and readings(in_form(CHAIN, 256), n) == readings(CHAIN, n)

NAMED = {1: 'P2: ', 3: 'P3: ', 4: 'P4: ', 64: 'P9: ', 65: 'P9: '}
for n in (0, 1, 2, 3, 4, 5, 64, 65):
    w, r = 8 * slots(A, n), len(made(A, min(n, 64))[3])
    for words, room, how in ((w, r, 'exact areas'), (w - 1, r, 'a work word short'), (w - 8, r, 'a work slot short'), (w, r - 1, 'a result byte short'),
                             (w - 1, r - 1, 'both areas short'), (w + 7, r, '7 work words more'), (w + 8, r + 1, 'a slot and a byte more'),
                             (w + 20, r + 9, 'longer areas'), (w, 0, 'no result area'), (0, r, 'no work area')):
        if words >= 0: case(f"{NAMED.get(n, '') if how == 'exact areas' else ''}A, n = {n}, {how}", A, n, words, room)
for n in range(65): case(f'P5: no nodes and no start, n = {n}', EMPTY, n)
case('P5: no nodes and no start, n = 65', EMPTY, 65)
for n in (0, 1, 2, 64): case(f'no nodes, n = {n}, areas longer', EMPTY, n, 8 * slots(EMPTY, n) + 17, 33)
for n in (2, 64): case(f'no nodes, n = {n}, a work word short', EMPTY, n, 8 * slots(EMPTY, n) - 1, 20)
for n in (0, 1, 2, 64): case(f'no nodes, n = {n}, a result byte short', EMPTY, n, None, 19)

for b, unit in ((A64, 64), (A256, 256)):
    for n in (0, 1, 2, 3, 4, 64, 65):
        w, r = 8 * slots(b, n), len(made(b, min(n, 64))[3])
        for words, room, how in ((w, r, 'exact areas'), (w - 1, r, 'a work word short'), (w, r - 1, 'a result byte short'), (w, r - 4, 'a result word short'),
                                 (w + 20, r + 9, 'longer areas')):
            if words >= 0 and (unit == 256 or n in (1, 2)): case(f'A, of unit {unit}, n = {n}, {how}', b, n, words, room)
for n in (0, 1, 2, 3, 32, 63, 64, 65):
    for form in 64, 256: case(f'no nodes and no start, of unit {form}, n = {n}', longer(EMPTY, form), n)
for n in (0, 1, 2):
    case(f'no nodes, of unit 256, n = {n}, room for the shorter trailer', longer(EMPTY, 256), n, None, 20)
    case(f'no nodes, of unit 64, n = {n}, a result byte short', longer(EMPTY, 64), n, None, 23)
    case(f'23 bytes, n = {n}', longer(EMPTY, 256)[1:], n)
    case(f'no nodes, of unit 128, n = {n}', longer(EMPTY, 128), n)
    for form, so in (256, 'of unit 256'), (64, 'of unit 64'), (None, 'of the shorter trailer'), (128, 'of unit 128'):
        k = case(f'1/256 and -32, {so}, n = {n}', with_form(FINE, form), n)
        assert k == {256: 0, 128: 14}.get(form, 4)
    assert case(f'1/256 and -32, of unit 128, with start 7, n = {n}', with_start(with_form(FINE, 128), 7), n) == 14

LONE = climbing(2, [(0, LARGEST, 1)], 0)
for n in (0, 1, 2, 64, 65):
    case(f'P6: 19 bytes, n = {n}', EMPTY[1:], n)
    case(f'P7: weight {LARGEST:g}, n = {n}', LONE, n)
    case(f'P7: weight {LARGEST + 1 / 64}, n = {n}', with_word(LONE, 2, f(LARGEST + 1 / 64)), n)
    case(f'P8: a link to its own node, n = {n}', with_word(A, 15, 1), n)

FINER = in_form(LONE, 256)
for n in (1, 2):
    assert case(f'weight {LARGEST / 4:g}, of unit 256, n = {n}', FINER, n) == 0
    assert case(f'weight {(UNITS + 1) / 256}, of unit 256, n = {n}', with_word(FINER, 2, f((UNITS + 1) / 256)), n) == 4
    assert case(f'weight {1 / 512}, of unit 256, n = {n}', with_word(FINER, 2, f(1 / 512)), n) == 4
    assert case(f'weight {LARGEST:g}, of unit 256, n = {n}', with_word(FINER, 2, f(LARGEST)), n) == 4
    assert case(f'weight {LARGEST:g}, of unit 64, n = {n}', in_form(LONE, 64), n) == 0

LAST = sheet([], [(0, 0, 0)] * (NODES - 1) + [(0, 1, f(.5))], NODES - 1)
ALL = sheet([], [(0, 1, f(.5))] * NODES, NODES - 1)
MOST = sheet([(1, 2, f(2), 1)] * (LINKS - 1) + [(3, 4, f(-1), 1)], [(LINKS, 0, 0), (0, 1, 0)], 0)
OVER = sheet([], [(0, 0, 0)] * NODES + [(0, 1, 0)], NODES)
for n in (1, 2):
    case(f'P10: {NODES:,} nodes, n = {n}', LAST, n)
    case(f'P10: {NODES:,} final nodes without links, n = {n}', ALL, n)
    case(f'P10: {NODES + 1:,} nodes, n = {n}', OVER, n, 40000, 1000)
    case(f'P11: the chain of {NODES:,} nodes, n = {n}', CHAIN, n)
    case(f'the chain of {NODES:,} nodes, n = {n}, a work word short', CHAIN, n, 8 * slots(CHAIN, n) - 1, RESULT)
    case(f'the chain of {NODES:,} nodes, n = {n}, a result byte short', CHAIN, n, None, len(made(CHAIN, n)[3]) - 1)
    case(f'{LINKS:,} links, n = {n}', MOST, n)
    case(f'{LINKS + 1:,} links, n = {n}', sheet([(1, 1, f(2), 1)] * (LINKS + 1), [(LINKS + 1, 0, 0), (0, 1, 0)], 0), n)
case(f'{NODES:,} final nodes without links, n = 64', ALL, 64)
case(f'the chain of {NODES:,} nodes, of unit 256, n = 2', in_form(CHAIN, 256), 2)

# of each refusal, in the order of the tests, what brings it about in A's words; 5 goes by A with a node more than there may be, 7, 20 and 21 by n
# and the areas
def large(b): return sheet(fields(b)[0], fields(b)[1] + [(0, 0, 0)] * (NODES - 3), 0, form_of(b))
BREAKS = {1: lambda b: with_word(b, 24, 2), 14: lambda b: with_form(b, 128), 2: lambda b: with_start(b, NONE - 1), 3: lambda b: with_word(b, 19, NONE - 1),
          4: lambda b: with_word(b, 2, 1), 5: lambda b: b, 6: lambda b: with_word(b, 15, 1), 7: lambda b: b, 20: lambda b: b, 21: lambda b: b}
def refused(ks, n, b=A):
    if 7 in ks: n = 65
    whole = large(b) if 5 in ks else b
    broken = functools.reduce(lambda x, k: BREAKS[k](x), ks, whole)
    k = case(f"refused: {' and '.join(map(str, ks))}, n = {n}", broken, n, 8 * slots(whole, n) - (20 in ks), 19 if 21 in ks else 1000)
    assert k == ks[0]
for n in (0, 1, 3):
    for k in BREAKS:
        if (k != 7 or n == 3) and (k != 20 or n > 0): refused([k], n)
for i, ks in enumerate(itertools.combinations(BREAKS, 2)): refused(ks, 3, (A, A256)[i % 2])
for i, ks in enumerate(itertools.combinations((1, 14, 2, 3, 4, 6), 2)): refused(ks, 1, (A256, A)[i % 2])
# the fields of the longer trailer, a word more and a word less
for i in range(TRAILER, TRAILER + 6):
    for w in (1, NONE): case(f'A, of unit 256, word {i} {w:x}', with_word(A256, i, w), 2)
for w in (0, 1, 63, 65, 128, 257, 320, 512, 64 << 8, 64 << 16, 1 << 31, NONE): assert case(f'A, of unit {w}', longer(A, w), 2) == 14
for w in (0, 64, 256): assert case(f'A, of unit 256, and {w} behind it', longer(A256, w), 2) == 1
assert case('A, of unit 256, less its last word', A256[:-4], 2) == 0 and case('A, of unit 256, less its first word', A256[4:], 2) == 1
assert case('A, a word before its trailer', A[:-20] + bytes(4) + A[-20:], 2) == 1

def other(i): return i + 1, i + 101
KINDS = [('equal ways', climbing(4, [(0, 1, 1), (0, 1, 2), (1, 2, 3), (2, 2, 3)], 0, None, other)),
         ('equal totals of final nodes', climbing(4, [(0, 1, 1), (0, 2, 2), (1, 1, 3)], 0, {1: 1, 2: 0, 3: 0}, other)),
         ('equal ways of unlike lengths', climbing(4, [(0, 1, 1), (0, 3, 3), (0, 2, 2), (1, 1, 2), (1, 2, 3), (2, 1, 3)], 0, None, other)),
         ('two links, then three, all equal', TWICE),
         ('parallel links', climbing(3, [(0, 1, 1), (0, 1, 1), (0, .5, 1), (1, 0, 2), (1, 0, 2)], 0, None, other)),
         ('six times two links', climbing(7, [(v, w, v + 1) for v in range(6) for w in (1, 1 + 2 ** -v)], 0, None, other)),
         ('unreached nodes', climbing(6, [(0, 1, 2), (1, -2, 2), (1, 0, 3), (2, 1, 5), (4, -9, 5)], 0, None, other)),
         ('nodes below the start that link to reached ones', climbing(5, [(0, -3, 2), (1, -4, 3), (2, 1, 3), (2, 2, 4), (3, 0, 4)], 2, None, other)),
         ('unreached final nodes', climbing(5, [(0, 1, 4), (1, -1, 4), (2, .5, 3)], 0, {1: -5, 2: 0, 3: -LARGEST, 4: 1}, other)),
         ('unreached final nodes alone', climbing(3, [(0, 1, 1)], 0, None, other)),
         ('one node, a reading without links', sheet([], [(0, 1, f(-2))], 0)),
         ('a reading without links among others', climbing(3, [(0, 1, 1), (0, 2, 2), (1, 1, 2)], 0, {0: 3, 1: -1, 2: 0}, other)),
         ('labels 0', climbing(3, [(0, 1, 1), (0, 2, 2), (1, 1, 2)], 0, None, lambda i: (0, 0))),
         ('labels 0 on one side', climbing(3, [(0, 1, 1), (0, 2, 2), (1, 1, 2)], 0, None, lambda i: (0, 7) if i else (NONE, 0))),
         ('equal labels', climbing(3, [(0, 1, 1), (0, 1, 1), (1, 1, 2), (1, 1, 2)], 0, None, lambda i: (5, 6))),
         ('negative costs', climbing(4, [(0, -LARGEST, 1), (0, -1 / 64, 2), (1, -LARGEST, 2), (1, LARGEST, 3), (2, -.5, 3)], 0, {1: -.25, 3: -LARGEST}, other)),
         ('costs that come back to 0', climbing(3, [(0, 1.25, 1), (0, 0, 2), (1, -1.25, 2)], 0, None, other)),
         ('no start', with_word(A, TRAILER + 4, NONE)), ('no final node', climbing(3, [(0, 1, 1), (1, 1, 2)], 0, {}, other)),
         ('start 1', with_word(A, TRAILER + 4, 1)), ('the start the last node', with_word(A, TRAILER + 4, 3))]
for what, b in KINDS:
    for n, form in zip((0, 1, 2, 3, 4, 10, 64), (64, 256, None, None, 64, 256, None)): case(f'{what}, {form or 64}ths, n = {n}', in_form(b, form), n)

# with barred links or ends: how many finite readings there are, the machine's name, and its sheet
BARS = [(1, 'E: barred links and a barred end', E),
        (0, 'all readings barred by a link', climbing(2, [(0, INF, 1)], 0, None, other)),
        (0, 'all readings barred by links', climbing(4, [(0, 1, 1), (0, INF, 3), (0, INF, 3), (1, INF, 2), (2, 0, 3)], 0, None, other)),
        (0, 'all readings barred by their end', climbing(2, [(0, 1, 1)], 0, {1: INF}, other)),
        (0, "the start's own end barred", climbing(1, [], 0, {0: INF})),
        (0, 'all links and ends barred', climbing(3, [(0, INF, 1), (0, INF, 2), (1, INF, 2)], 0, {0: INF, 1: INF, 2: INF}, other)),
        (0, 'a barred way and unreached ends', climbing(4, [(0, INF, 1), (2, 1, 3)], 0, {1: 0, 2: -1, 3: 0}, other)),
        (1, "the start's own end barred, another not", climbing(2, [(0, 3, 1)], 0, {0: INF, 1: 0}, other)),
        (1, 'a barred link before a finite one', climbing(2, [(0, INF, 1), (0, -1, 1)], 0, None, other)),
        (1, 'a barred link behind a finite one', climbing(2, [(0, -1, 1), (0, INF, 1)], 0, None, other)),
        (1, 'one reading finite, one barred', climbing(2, [(0, INF, 1)], 0, {0: 0, 1: 0}, other)),
        (1, 'one reading finite, two barred', climbing(2, [(0, INF, 1), (0, INF, 1)], 0, {0: 0, 1: 0}, other)),
        (1, 'one reading finite, nine barred', climbing(3, [(0, INF, 1)] * 3 + [(0, 2, 2)] + [(1, 0, 2)] * 3, 0, None, other)),
        (2, 'two readings finite, two barred', climbing(3, [(0, 1, 1), (0, 2, 1), (1, INF, 2)], 0, {1: 0, 2: 1}, other)),
        (2, 'two readings finite, many barred', climbing(4, [(0, 1, 1), (0, 2, 1)] + [(0, INF, 1), (0, INF, 2)] * 3 + [(1, INF, 2)] * 2 + [(2, 1, 3)] * 2, 0, {1: 0, 3: -2}, other)),
        (2, 'two finite ways of equal cost, one barred', climbing(3, [(0, 1, 1), (0, 1, 1), (0, INF, 1), (1, 0, 2)], 0, None, other)),
        (1, 'a barred link from an unreached node to the highest', climbing(4, [(0, 1, 1), (2, INF, 3)], 0, {1: 0, 3: 0}, other)),
        (1, 'a barred link from a reached node to the highest', climbing(4, [(0, 1, 1), (1, INF, 3)], 0, {1: 0, 3: 0}, other)),
        (1, 'barred links below the start', climbing(4, [(0, INF, 2), (1, INF, 2), (2, 1, 3), (2, INF, 3)], 2, None, other)),
        (0, 'barred links and no start', climbing(3, [(0, INF, 1), (1, 1, 2)], NONE, {1: INF, 2: 0}, other)),
        (1, 'the largest weight beside a barred one', climbing(2, [(0, LARGEST, 1), (0, INF, 1)], 0, {0: INF, 1: LARGEST}, other))]
def bound(b, n):
    """no search takes more entries"""
    links, nodes, _ = fields(b)
    return 1 + sum(mark for _, mark, _ in nodes) + n * (len(links) + 1)
for i, (finite, what, whole) in enumerate(BARS):
    for n, form in zip((1, 2, 3, 64) if finite == 0 or whole is E else (1, 2, 3), (FORMS + FORMS)[i % 4:]):
        b = in_form(whole, form)
        assert case(f'{what}, {form or 64}ths, n = {n}', b, n) == 0 and len(readings(b, n)) == min(finite, n) and made(b, n)[2] <= bound(b, n)
        if finite == 0: assert made(b, n) == (0, 0, 0, with_form(EMPTY, form))
w, r = 8 * slots(E, 3), len(made(E, 3)[3])
for words, room, how in ((w - 1, r, 'a work word short'), (w, r - 1, 'a result byte short'), (w + 9, r + 3, 'longer areas')):
    case(f'E, n = 3, {how}', E, 3, words, room)
for what, w in ('-infinity', 0xFF800000), ('a NaN', 0x7FC00000), ('a signalling NaN', 0x7F800001):
    assert case(f'E, a barred link {what}', with_word(E, 6, w), 2) == 4 == case(f'E, its barred end {what}', with_word(E, 24, w), 1)
assert case('E, infinity where the mark is 0', with_word(E, 18, BARRED), 2) == 1
assert case('E, the next node of a barred link out of range', with_word(E, 7, 4), 2) == 3
assert case('E, a barred link to its own node', with_word(E, 7, 0), 2) == 6

random.seed(1)
def some():
    """a sheet of few distinct weights, half of them with the longer trailer"""
    n, ws = random.randint(1, 9), random.sample([0, 0, 1, 1, 2, .5, -1, -.25, LARGEST, 1 / 64], random.randint(1, 3))
    ways = [(v, v + 1) for v in range(n - 1) if random.random() < .8]
    if n > 1: ways += [(v, random.randint(v + 1, min(n - 1, v + 3))) for v in random.choices(range(n - 1), k=random.randint(0, 8))]
    random.shuffle(ways)
    names = [(random.randrange(4), random.randrange(4)) for _ in ways]
    finals = {v: random.choice(ws) for v in range(n) if random.random() < .3 or v == n - 1 and random.random() < .9}
    b = climbing(n, [(v, random.choice(ws), nxt) for v, nxt in ways], random.choice([0] * 8 + [random.randrange(n), NONE]), finals, lambda i: names[i])
    return in_form(b, random.choice(FORMS))
for i in range(210):
    b, n = some(), random.choice([0, 1, 2, 2, 2, 3, 3, 4, 5, 7, random.randint(0, 66), random.randint(60, 66)])
    words, room = 8 * slots(b, n), len(made(b, min(n, 64))[3])
    case(f'random {i}', b, n, max(0, words + random.choice([0] * 9 + [3, 8, 17, -1, -8])), max(0, room + random.choice([0] * 9 + [1, 5, 12, -1, -4])))
random.seed(3)
for i in range(80):
    b, n = some_barred(random, some()), random.choice([1, 2, 2, 2, 3, 3, 4, 5, 7, random.randint(0, 64)])
    words, room = 8 * slots(b, n), len(made(b, n)[3])
    case(f'barred at random {i}', b, n, words + random.choice([0] * 6 + [3, 8, -1]), max(0, room + random.choice([0] * 6 + [1, 12, -1])))
    assert made(b, n)[2] <= bound(b, n)
for i, (b, n, _, *told) in enumerate(sample()):
    assert made(b, n, True) == tuple(told)
    case(f'the Rust {i}', b, n)
    if i % 10 == 5: case(f'the Rust {i}, longer areas', b, n, 8 * slots(b, n) + 1 + i % 20, len(told[3]) + 1 + i % 30)
if __name__ == '__main__':
    for line in lines: print(line)
