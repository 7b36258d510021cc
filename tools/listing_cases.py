#!/usr/bin/env python3
"""Writes the cases that crates/replay_listings replays: a line a case, with a space between: the bytes read, the text that must be printed, both
as sheets.py writes bytes, and what the case is. What is expected comes from `printed` below, which follows the text of the requirements and
shares nothing with the library.

    python3 tools/listing_cases.py > crates/replay_listings/stdin
"""
import functools, itertools, random
from list_cases import BARS, BREAKS, KINDS, labels, large, made, readings, some
from search_oracle import INF
from sheets import (A, A64, A256, E, EMPTY, FINE, FORMS, LARGEST, NODES, NONE, TRAILER, UNITS, climbing, f, fields, form_of, in_form, input_number, longer,
                    read, sheet, some_barred, with_form, with_word, written)

def listing_number(n, b):
    """the refusal, or 0"""
    if len(b) > 4096: return 20
    return input_number(b) or (7 if n > 64 else 20 if n > 4 else 0)

def printed(data):
    """the text for all that is read"""
    if not data: return 'refused 1\n'
    n, b = data[0], data[1:]
    k = listing_number(n, b)
    if k: return f'refused {k}\n'
    rows = [(rank, cost, *names) for rank, ((_, cost), names) in enumerate(zip(readings(b, n), labels(b, n)), 1)]
    return ''.join(' '.join(map(str, row)) + '\n' for row in [('readings', len(rows), 'taken', made(b, n)[2])] + rows)

lines = []
def case_of(what, data):
    """a case by all that is read"""
    text = printed(data).encode()
    assert len(data) <= 65536 and len(text) <= 49152 and all(read(written(x, 1)) == x for x in (data, text))
    lines.append(f'{written(data, 1)} {written(text, 1)} # {what}')
    return text.decode()

def case(what, n, b): return case_of(f'{what}, n = {n}', bytes([n]) + b)

for n in (0, 1, 2, 3, 4, 5, 6, 63, 64, 65, 66, 128, 255):
    case('A', n, A)
    case('no nodes and no start', n, EMPTY)
    case('19 bytes', n, EMPTY[1:])
    case('the byte n alone', n, b'')
assert case_of('nothing', b'') == printed(b'\2') == 'refused 1\n' and printed(b'\0' + A) == 'readings 0 taken 0\n'
assert printed(b'\1' + A) == 'readings 1 taken 0\n1 112 1 3\n' and printed(b'\2' + A) == 'readings 2 taken 8\n1 112 1 3\n2 112 2 4\n'
assert printed(b'\4' + A) == 'readings 3 taken 11\n1 112 1 3\n2 112 2 4\n3 144 1 5 4\n' and printed(b'\5' + A) == 'refused 20\n'

# the longer trailer: costs in its unit
for n in (0, 1, 2, 3, 4, 5, 64, 65):
    case('A, of unit 64', n, A64)
    case('A, of unit 256', n, A256)
    case('no nodes and no start, of unit 256', n, longer(EMPTY, 256))
assert printed(b'\2' + A64) == printed(b'\2' + A) and printed(b'\3' + A256) == 'readings 3 taken 11\n1 448 1 3\n2 448 2 4\n3 576 1 5 4\n'
assert printed(b'\1' + A256) == 'readings 1 taken 0\n1 448 1 3\n'
for n in (0, 1, 2, 5):
    case('23 bytes of the longer trailer', n, longer(EMPTY, 256)[1:])
    case('the longer trailer, less its last word', n, longer(EMPTY, 256)[:-4])
    for form in 256, 64, None, 128: case(f'1/256 and -32, of unit {form or 64}' + ' by the shorter trailer' * (form is None), n, with_form(FINE, form))
assert printed(b'\1' + FINE) == 'readings 1 taken 0\n1 -8191 1\n' and [printed(b'\1' + with_form(FINE, form)) for form in (64, None, 128)] == \
    ['refused 4\n', 'refused 4\n', 'refused 14\n']

# one refusal and two: 5 needs more than 4,096 sheet bytes, and so is told as 20 before all else; 7 goes by n; 20 by n from 5 to 64 comes after them
TESTED = 1, 14, 2, 3, 4, 5, 6, 7
for i, ks in enumerate([(k,) for k in TESTED] + [*itertools.combinations(TESTED, 2)]):
    whole = (A, A256)[i % 2]
    b = functools.reduce(lambda x, k: BREAKS[k](x), ks, large(whole) if 5 in ks else whole)
    for n in (65, 255) if 7 in ks else (0, 1, 2, 4, 5, 20, 64) if len(ks) == 1 else (0, 1, 2, 5, 64):
        assert case(f"refused: {' and '.join(map(str, ks))}", n, b) == f'refused {20 if 5 in ks else ks[0]}\n'

# on the input side labels of each length, on the output side others
LABELS = [0, 1, 9, 10, 99, 100, 999999999, 1000000000, 2 ** 31 - 1, 2 ** 31, 4294967294, NONE]
def named(i): return LABELS[i % len(LABELS)], i + 7
def long_name(i): return NONE - i, i

# sheets of exactly 4,096 bytes, and just longer
FLAT = climbing(5, [(i % 4, (i * 37 % 129 - 64) / 2, i % 4 + 1) for i in range(251)], 0, {4: -.5}, named)
WIDE = climbing(337, [(0, 1.5, 336), (0, -LARGEST, 200)], 0, {200: LARGEST, 336: -1 / 64}, named)
DEEP = climbing(145, [(v, LARGEST, v + 1) for v in range(144)] + [(3, LARGEST, 4), (143, LARGEST - .5, 144)], 0, {144: LARGEST}, long_name)
OVER = climbing(4, [(i % 3, 1, i % 3 + 1) for i in range(252)], 0, None, lambda i: (5, 6))
FLAT256 = climbing(6, [(i % 5, (i * 37 % 129 - 64) / 8, i % 5 + 1) for i in range(250)], 0, {5: -.125}, named, 256)
WIDE64 = climbing(338, [(0, 1.5, 337)], 0, {200: LARGEST, 337: -1 / 64}, named, 64)
for what, b, ns in (('251 links and 5 nodes', FLAT, (0, 2, 4, 65)), ('2 links and 337 nodes', WIDE, range(6)), ('146 links and 145 nodes', DEEP, (0, 1, 2, 4, 5)),
                    ('250 links and 6 nodes, of unit 256', FLAT256, (1, 3, 4, 5)), ('1 link and 338 nodes, of unit 64', WIDE64, range(6))):
    assert len(b) == 4096 and input_number(b) == 0
    for n in ns: case(f'4,096 bytes: {what}', n, b)
    for n in (2, 5)[b is FLAT256:]: assert case(f'4,096 bytes: {what}, a weight off the grid', n, with_word(b, 2, 1)) == 'refused 4\n'
assert len(OVER) == 4100 and input_number(OVER) == 0
LONG = [('4,100 bytes', OVER), ('4,100 bytes, a weight off the grid', with_word(OVER, 2, 1)), ('4,097 bytes that are no sheet', bytes(4097)),
        ('a byte before 4,096', b'\0' + WIDE), ('a byte behind 4,096', WIDE + b'\0'), ('a word behind 4,096', longer(WIDE, 256)), (f'{NODES + 1:,} nodes', large(A)),
        ('20,000 bytes that are no sheet', bytes(20000))]
for n in (0, 2, 5, 65):
    for what, b in ('4,096 bytes that are no sheet', bytes(4096)), ('4,095 bytes of 4,096', WIDE[1:]): assert case(what, n, b) == 'refused 1\n'
    for what, b in LONG: assert len(b) > 4096 and case(what, n, b) == 'refused 20\n'

# the longest reading that 4,096 bytes can hold, with the largest labels, and the costs farthest from 0
for k, form in (UNITS, None), (-UNITS, 256), (1, 256), (-1, None), (0, None):
    b = in_form(climbing(146, [(v, k / 64, v + 1) for v in range(145)], 0, {145: k / 64}, long_name), form)
    assert len(b) <= 4096 < len(b) + 28 and input_number(b) == 0
    for n in (1, 2) if abs(k) == UNITS else (2,):
        assert case(f'the chain of 145 links, each weight {k} {form or 64}ths', n, b).split()[4:6] == ['1', str(146 * k)]
# with n = 1 the word behind the shorter trailer is 64, as a unit may be
for form in None, 64, 256:
    b = in_form(climbing(66, [(v, 1, v + 1) for v in range(65)], 0), form)
    assert case(f'the chain of 65 links, by {form or 64}ths', 1, b).split()[4:6] == ['1', str(65 * 64)]

def lone(k): return sheet([], [(0, 1, f(k / 64))], 0)
MORE = [('labels of each length', climbing(len(LABELS) + 1, [(v, 0, v + 1) for v in range(len(LABELS))], 0, None, named)),
        ('each label a reading', climbing(2, [(0, i / 8, 1) for i in range(4)], 0, None, lambda i: (LABELS[-1 - i], 5))),
        ('costs about 0', climbing(2, [(0, k / 64, 1) for k in (-1, 0, 1, -10)], 0, None, named)),
        ('costs that the final weight turns', climbing(3, [(0, 1, 1), (0, -1, 2)], 0, {1: -2, 2: 2}, named)),
        ('costs of one to four digits', climbing(2, [(0, k / 64, 1) for k in (UNITS, 999, 10, 9)], 0, None, named)),
        ('a link but no nodes', with_word(EMPTY, 3, 1)), ('a link but no nodes, of unit 256', with_word(longer(EMPTY, 256), 3, 1)), ('a start that is no node', with_word(A, TRAILER + 4, 4)),
        *((f'a reading without links, cost {k}', lone(k)) for k in (0, 1, -1, -UNITS))]
for i, (what, b) in enumerate(KINDS + MORE):
    for n in range(6):
        form = FORMS[(i + n) % 4] if input_number(b) == 0 else form_of(b)
        case(f'{what}, {form or 64}ths', n, in_form(b, form) if input_number(b) == 0 else b)
assert printed(b'\2' + lone(-1)) == 'readings 1 taken 3\n1 -1\n'

for i, (_, what, b) in enumerate(BARS):
    for n in (0, 1, 2, 3, 4, 5) if b is E else (1, 2, 4): case(what, n, in_form(b, FORMS[(i + n) % 4]))
assert printed(b'\1' + E) == 'readings 1 taken 0\n1 6 1\n' and printed(b'\2' + E) == 'readings 1 taken 13\n1 6 1\n'
assert printed(b'\3' + E) == 'readings 1 taken 16\n1 6 1\n' and printed(b'\5' + E) == 'refused 20\n'
for n in (1, 2, 4): assert case('a barred way alone', n, climbing(3, [(0, 1, 1), (1, INF, 2)], 0)) == 'readings 0 taken 0\n'
for what, w in ('-infinity', 0xFF800000), ('a NaN', 0x7FC00000), ('a signalling NaN', 0x7F800001):
    assert case(f'E, a barred link {what}', 2, with_word(E, 6, w)) == 'refused 4\n' == case(f'E, its barred end {what}', 2, with_word(E, 24, w))

random.seed(2)
def renamed(b):
    """with other input labels"""
    links, nodes, start = fields(b)
    return sheet([(random.choice(LABELS + [random.randrange(NONE)]), *l[1:]) for l in links], nodes, start, form_of(b))
for i in range(180):
    b = renamed(some())
    if random.random() < .1: b = with_word(b, random.randrange(len(b) // 4), random.choice([0, 1, 2, f(LARGEST + 1), NONE]))
    case(f'random {i}', random.choice([1, 2, 2, 3, 3, 4, 4, random.randint(0, 66)]), b)
random.seed(3)
for i in range(60): case(f'barred at random {i}', random.choice([1, 2, 2, 3, 3, 4]), renamed(some_barred(random, some())))
for line in lines: print(line)
