"""The sheet of what two sheets both allow, from the text of the requirements, with exact fractions: what the scripts beside this one and the
comparing run in oracle/ share. It shares nothing with the library.
"""
from collections import Counter
from fractions import Fraction
from functools import lru_cache
from itertools import islice
from math import inf
from sheets import BARRED, LINKS, NODES, NONE, f, fields, fits, form_of, input_number, real, sheet, sources, unit_of

@lru_cache(None)
def units(bits, unit): return inf if bits == BARRED else int(unit * Fraction(real(bits)))

@lru_cache(2 ** 16)
def summed(a, b):
    """the bits of the exact sum of two weights, by their bits"""
    if BARRED in (a, b): return BARRED
    total = Fraction(real(a)) + Fraction(real(b))
    bits = f(float(total))
    assert Fraction(real(bits)) == total
    return bits

def leaving(links, nodes):
    """the links of each node, in their order"""
    rest = iter(links)
    return [list(islice(rest, count)) for count, _, _ in nodes]

def by_label(links):
    told = {}
    for link in links: told.setdefault(link[0], []).append(link)
    return told

def links_of(first, second):
    """the links of each node: wherever both have one of the same label, by the first's link, then the second's"""
    (links, nodes, _), (more, others, _) = fields(first), fields(second)
    theirs = [by_label(ls) for ls in leaving(more, others)]
    for mine in leaving(links, nodes):
        for partners in theirs:
            yield [(label, label, summed(bits, too), nxt * len(others) + other)
                   for label, _, bits, nxt in mine for _, _, too, other in partners.get(label, ())]

def finals_of(first, second):
    """the mark and the weight bits of each node: it is final if both are"""
    for _, mark, bits in fields(first)[1]:
        for _, other, too in fields(second)[1]: yield (1, summed(bits, too)) if mark and other else (0, 0)

def product(first, second):
    """the sheet of what both allow, of two accepted sheets that no refusal befalls, under the first's trailer"""
    out, (_, others, there), here = list(links_of(first, second)), fields(second), fields(first)[2]
    nodes = [(len(links), *final) for links, final in zip(out, finals_of(first, second))]
    return sheet([link for links in out for link in links], nodes, NONE if NONE in (here, there) else here * len(others) + there, form_of(first))

def product_number(first, second):
    """the refusal of two accepted sheets of one unit, 10, 11 or 12, or 0"""
    unit = unit_of(first)
    (links, nodes, _), (more, others, _) = fields(first), fields(second)
    if any(ilabel == 0 or ilabel != olabel for ilabel, olabel, _, _ in links + more): return 10
    here, there = (Counter(link[0] for link in ls) for ls in (links, more))
    if len(nodes) * len(others) > NODES or sum(count * there[label] for label, count in here.items()) > LINKS: return 11
    if not all(fits(bits, unit) for out in links_of(first, second) for _, _, bits, _ in out): return 12
    return 0 if all(fits(bits, unit) for _, bits in finals_of(first, second)) else 12

def second_number(first, second):
    """the refusal of the second beside an accepted first: right after its 1 comes 14, of its unit or of units that differ"""
    k = input_number(second)
    return 14 if k != 1 and unit_of(first) != unit_of(second) else k

@lru_cache(16)
def made(first, second):
    """the number, 21 apart, and the bytes of the answer"""
    k = input_number(first) or second_number(first, second) or product_number(first, second)
    return k, b'' if k else product(first, second)

def outcome(first, second, room):
    """the number, and the bytes of the answer"""
    k, answer = made(first, second)
    return (21, b'') if room < len(answer) else (k, answer)

def readings(b):
    """how many readings of an accepted sheet have these labels and this cost in its units"""
    (links, nodes, start), unit = fields(b), unit_of(b)
    ways, told = [Counter() for _ in nodes], Counter()
    if start != NONE: ways[start][(), 0] = 1
    for v, (label, _, bits, nxt) in zip(sources(nodes), links):
        for (labels, cost), count in ways[v].items():
            if bits != BARRED: ways[nxt][(*labels, label), cost + units(bits, unit)] += count
    for runs, (_, mark, bits) in zip(ways, nodes):
        for (labels, cost), count in runs.items():
            if mark and bits != BARRED: told[labels, cost + units(bits, unit)] += count
    return told

def paired(first, second):
    """the same of the pairs of readings with the same labels, at the sum of their costs"""
    alike, told = {}, Counter()
    for (labels, cost), count in readings(second).items(): alike.setdefault(labels, []).append((cost, count))
    for (labels, cost), count in readings(first).items():
        for other, times in alike.get(labels, ()): told[labels, cost + other] += count * times
    return told
