"""Machines that narrow to a node, drawn, and some that fall short of it by one thing, and damaged ones: what the stored cases of part_cases.py,
parts_judge.py and part_lists_judge.py share. Every draw takes its random numbers from `r`. It shares nothing with the library.
"""
from drawn_pairs import reformed
from drawn_rows import damaged_sheet
from readback_judge import drawn
from sheets import BARRED, FORMS, LINKS, NODES, NONE, climbing, f, fields, form_of, in_form, sheet, sources, unit_of

def glued(first, second):
    """of two sheets of sixty-fourths the machine that narrows to the last node of the first, where the second begins; the first's marks are dropped,
    and it starts at 0 where it had no start"""
    (links, nodes, start), (more, others, _) = fields(first), fields(second)
    c = len(nodes) - 1
    moved = [(ilabel, olabel, bits, nxt + c) for ilabel, olabel, bits, nxt in more]
    return sheet(links + moved, [(count, 0, 0) for count, _, _ in nodes[:c]] + others, 0 if start == NONE else start), c

def with_links(b, more):
    """with more links, of (source, labels, bits, next), each behind those of its source"""
    links, nodes, start = fields(b)
    ways = sorted(list(zip(sources(nodes), links)) + [(v, link) for v, *link in more], key=lambda way: way[0])
    counts = [sum(v == at for v, _ in ways) for at in range(len(nodes))]
    return sheet([tuple(link) for _, link in ways], [(count, *final) for count, (_, *final) in zip(counts, nodes)], start, form_of(b))

def some_bits(r, unit): return r.choice((0, 0, BARRED, f(r.randint(-64, 64) / unit)))
def some_link(r, unit=64): return r.choice((1, r.getrandbits(32))), r.choice((1, 2)), some_bits(r, unit)

def joined(r, nodes=8, links=12):
    """a machine that narrows to a node, and that node: of most, several links lead there and leave it, some of them parallel"""
    below, above = r.choice((0, 1, 2, 3, r.randint(0, nodes))), r.choice((0, 1, 2, 3, r.randint(0, nodes)))
    def part(n): return drawn(r, n, r.randint(0, links) if n > 1 else 0, r.random() < .3)
    b, c = glued(part(below + 1), part(above + 1))
    more = []
    if r.random() < .7:
        if below: more += [(r.randrange(c), *some_link(r), c) for _ in range(r.randint(1, 4))]
        if above: more += [(c, *some_link(r), r.randint(c + 1, c + above)) for _ in range(r.randint(1, 4))]
    return in_form(with_links(b, more + more[:1] * r.choice((0, 0, 1))), r.choice(FORMS)), c

def with_node(b, v, node):
    links, nodes, start = fields(b)
    return sheet(links, nodes[:v] + [node] + nodes[v + 1:], start, form_of(b))

def with_link(b, l, link):
    links, nodes, start = fields(b)
    return sheet(links[:l] + [link] + links[l + 1:], nodes, start, form_of(b))

def with_start(b, start): return sheet(*fields(b)[:2], start, form_of(b))

# ---- what is amiss of a machine that narrows to c: each gives a sheet and a node

def marked(r, b, c):
    """a mark below c, or at c and above it"""
    nodes = fields(b)[1]
    v = r.randrange(c) if c and r.random() < .8 else r.randrange(len(nodes))
    return with_node(b, v, (nodes[v][0], 1, some_bits(r, unit_of(b)))), c

def led_past(r, b, c):
    """a link more from below c: to a node above it, or to any"""
    n = len(fields(b)[1])
    if c == 0: return b, c
    v = r.randrange(c)
    nxt = r.randint(c + 1, n - 1) if c + 1 < n and r.random() < .8 else r.randint(v + 1, c)
    return with_links(b, [(v, *some_link(r, unit_of(b)), nxt)]), c

def turned(r, b, c):
    """one of the links leads elsewhere, most often to c, beside it or to the last node"""
    links, nodes, _ = fields(b)
    if not links: return b, c
    l = r.randrange(len(links))
    v = sources(nodes)[l]
    nxt = r.choice((c - 1, c, c + 1, len(nodes) - 1, r.randint(v + 1, len(nodes) - 1)))
    return (with_link(b, l, (*links[l][:3], nxt)) if v < nxt < len(nodes) else b), c

def started(r, b, c):
    """another start: none, at c or beside it, or any node"""
    n = len(fields(b)[1])
    return with_start(b, r.choice([NONE] + [v for v in (c - 1, c, c + 1, n - 1, r.randrange(n)) if 0 <= v < n])), c

def another(r, b, c):
    """another node: beside c, about N, far up, or any; at times of a machine without marks, where N itself is the first that is amiss"""
    links, nodes, start = fields(b)
    n = len(nodes)
    if r.random() < .3: b = sheet(links, [(count, 0, 0) for count, _, _ in nodes], start, form_of(b))
    return b, r.choice((c - 1, c + 1, n - 1, n, n + 1, NONE, NONE - 1, 2 ** 31, 2 ** 31 + c, c + 2 ** 16, c + 2 ** 8, r.randrange(n + 1))) & NONE

AMISS = marked, led_past, turned, started, another

def damaged(r, b, c):
    """in some words, in length, or under another trailer"""
    return r.choice((reformed, damaged_sheet, damaged_sheet, damaged_sheet))(r, b), c

def wide(r):
    """a machine about the limits: of many nodes, or of many links into and out of the node"""
    if r.random() < .5:
        n = r.choice((NODES, NODES, NODES - 1))
        c = r.choice((0, 1, n // 2, n - 2, n - 1, r.randrange(n)))
        ends = {v: 1 for v in (c, c + 1, n - 1) if c <= v < n}
        return climbing(n, [(v, 0, v + 1) for v in range(n - 1)], r.choice((0, c)), ends, form=r.choice(FORMS)), c
    before = r.choice((0, 1, LINKS // 2, LINKS - 1, LINKS))
    return climbing(3, [(0, 0, 1)] * before + [(1, 1, 2)] * (LINKS - before), 0, form=r.choice(FORMS)), 1

# a node too many, and a link
OVER = climbing(NODES + 1, [(0, 1, 1), (1, 1, NODES)], 0), climbing(3, [(0, 1, 1)] * LINKS + [(1, 1, 2)], 0, label=lambda i: (1, 1))
