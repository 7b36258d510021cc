"""Pairs of sheets of one bake, drawn and damaged: what the stored cases of product_cases.py, product_judge.py and the comparing run in oracle/ share.
Every draw takes its random numbers from `r`. It shares nothing with the library.
"""
from drawn_rows import damaged_sheet
from sheets import FORMS, LINKS, NODES, NONE, UNITS, climbing, fields, form_of, in_form, sheet, some_barred, unit, with_form

# how the weights of a sheet are drawn, in units
def small(r): return r.choice((0, 0, 64, r.randint(-64, 64)))
def half(r): return r.choice((0, UNITS // 2, -UNITS // 2, r.randint(-UNITS // 2, UNITS // 2)))
def high(r): return r.choice((UNITS, UNITS, UNITS - 1, r.randint(0, UNITS)))
def low(r): return -high(r)
def whole(r): return r.choice((UNITS, -UNITS, 1, -1, 0, r.randint(-UNITS, UNITS)))

# those of two sheets: of all but the last two no sum is off the grid
SCALES = (small, small), (small, small), (half, half), (half, half), (high, low), (low, high), (small, whole), (whole, whole)
# the labels of links: below 2^31, and any
LABELS = (1,), (1,), (1,), (1, 2), (1, 2), (1, 2, 3), (2 ** 31 - 1, 2 ** 16 - 1), (7, 7 + 2 ** 16)
WORDS = (*LABELS, (NONE, 1), (2 ** 31, 2 ** 24), (7, 7 + 2 ** 31))

def drawn_sheet(r, labels, units, nodes, links):
    """a sheet of sixty-fourths, of at most so many nodes, and of a chain and about so many links at the most: any finals, at times no start or barred
    weights"""
    n = 0 if r.random() < .02 else r.randint(1, nodes)
    chained = r.choice((.4, .95))
    ways = [(v, v + 1) for v in range(n - 1) if r.random() < chained]
    for _ in range(r.randint(0, links) if n > 1 else 0):
        v = r.randrange(n - 1)
        ways += [(v, r.randint(v + 1, min(n - 1, v + 3)))] * r.choice((1, 1, 1, 2))
    marked, names = r.choice((.1, .4, .9, .9)), r.choices(labels, k=len(ways))
    finals = {v: units(r) / 64 for v in range(n) if r.random() < marked or v == n - 1 and r.random() < .8}
    start = NONE if n == 0 or r.random() < .04 else 0 if r.random() < .8 else r.randrange(n)
    b = climbing(n, [(v, units(r) / 64, nxt) for v, nxt in ways], start, finals, lambda i: (names[i], names[i]))
    return some_barred(r, b) if r.random() < .2 else b

def in_forms(r, first, second):
    """two sheets of sixty-fourths with as many units under any trailers, most often of one unit"""
    form = r.choice(FORMS)
    alike = [other for other in FORMS if unit(other) == unit(form)]
    return in_form(first, form), in_form(second, r.choice(FORMS if r.random() < .05 else alike))

def drawn_pair(r, nodes=6, links=10, words=WORDS):
    """two accepted sheets of few labels, of which one may have a label more"""
    labels, (one, other) = r.choice(words), r.choice(SCALES)
    first = drawn_sheet(r, labels, one, nodes, links)
    if r.random() < .05: return (in_form(first, r.choice(FORMS)),) * 2
    return in_forms(r, first, drawn_sheet(r, labels + (5,) * (r.random() < .2), other, nodes, links))

def mislabelled(r, b):
    """with another label at one of its links, if it has any: 0 on one side or both, or an output label that is not the input label"""
    links, nodes, start = fields(b)
    if not links: return b
    l = r.randrange(len(links))
    label = links[l][0]
    links[l] = (*r.choice(((0, 0), (0, label), (label, 0), (label, label ^ 1 << r.randrange(32)), (label ^ 1, label))), *links[l][2:])
    return sheet(links, nodes, start, form_of(b))

def reformed(r, b):
    """with another trailer, the weights as they are: of the other unit or of none, or a word more or less"""
    return r.choice((b[:-4], b + bytes(4), *(with_form(b, form) for form in (None, 64, 256, 256, 128, 0, 65, NONE))))

def damaged_pair(r, first, second):
    """with one of the two, or both, mislabelled, under another trailer, or damaged in some words or in length"""
    kinds = r.choice(('first', 'second', 'first and second'))
    def damaged(kind, b): return b if kind not in kinds else r.choice((mislabelled, mislabelled, reformed, damaged_sheet, damaged_sheet, damaged_sheet))(r, b)
    return damaged('first', first), damaged('second', second)

# how many nodes both have, with a product about the node limit
NODE_COUNTS = ((46, 46), (45, 45), (NODES, 1), (1, NODES), (NODES, 2), (2, NODES), (NODES // 2, 2), (2, NODES // 2), (683, 3), (3, 682), (0, NODES),
               (NODES, 0), (NODES, NODES))

def wide_pair(r):
    """two sheets of many nodes and few links"""
    one, other = r.choice(SCALES)
    def wide(n, units):
        ways = [(r.randrange(n - 1), n - 1) for _ in range(r.randint(0, 8))] if n > 1 else []
        finals = {v: units(r) / 64 for v in r.sample(range(n), min(n, r.randint(0, 5)))}
        return climbing(n, [(v, units(r) / 64, nxt) for v, nxt in ways], r.randrange(n) if n and r.random() < .9 else NONE, finals, lambda i: (4, 4))
    n, m = r.choice(NODE_COUNTS)
    return in_forms(r, wide(n, one), wide(m, other))

# of each label, how many links of the first and of the second have it: about as many pairs as the limit
LINK_COUNTS = ({7: (128, 128)}, {7: (129, 128)}, {7: (128, 129)}, {7: (127, 129), 8: (1, 1)}, {7: (127, 129), 8: (1, 2)}, {7: (90, 91), 8: (91, 90)},
               {7: (90, 91), 8: (91, 90), 9: (2, 2)}, {7: (90, 91), 8: (91, 90), 9: (5, 1)}, {7: (LINKS, 1)}, {7: (1, LINKS)}, {7: (LINKS, 2)},
               {7: (LINKS, 0), 8: (0, LINKS)}, {7: (LINKS // 2, 2)}, {7: (2, LINKS // 2), 8: (1, 1)}, {7: (LINKS, LINKS)})

def parallel_pair(r):
    """two sheets of two or three nodes each and many links, in any order"""
    counts, (one, other) = r.choice(LINK_COUNTS), r.choice(SCALES)
    def parallel(side, units):
        names = [label for label, count in counts.items() for _ in range(count[side])]
        r.shuffle(names)
        n = r.choice((2, 2, 3))
        start = r.choice((0, 0, n - 1, NONE))
        return climbing(n, [(0, units(r) / 64, r.randrange(1, n)) for _ in names], start, None, lambda i: (names[i], names[i]))
    return in_forms(r, parallel(0, one), parallel(1, other))

# one node too many, and one link
OVER = climbing(NODES + 1, [(0, 1, NODES)], 0), climbing(2, [(0, 1, 1)] * (LINKS + 1), 0)
