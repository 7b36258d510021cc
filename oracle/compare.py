#!/usr/bin/env python3
"""Holds lines of `oracle cases`, `oracle barred`, `oracle forms` or `oracle answer`, read from standard input, to the scripts in tools/, which follow the text of
the requirements and share nothing with the Rust: distances, nodes, links, entries taken, result bytes, and the readings with their costs in order.
The Rust's infinite readings are compared, too, with the same search that lists them; without them the readings and the entries taken must be
those of the requirements. Prints each line that differs, then counts.

    oracle cases 1 5000 | python3 oracle/compare.py
    oracle barred 1 5000 | python3 oracle/compare.py
    oracle forms 1 5000 | python3 oracle/compare.py
"""
import contextlib, io, os, sys
sys.path.insert(0, os.path.join(os.path.dirname(os.path.abspath(__file__)), '..', 'tools'))
with contextlib.redirect_stdout(io.StringIO()): import distance_cases, list_cases
from search_oracle import INF, Search
from sheets import fields, form_of, input_number, sources, unit_of

def unhex(text): return b'' if text == '-' else bytes.fromhex(text)

def searched(b, n):
    """costs and readings of the search itself, infinite ones too"""
    (links, nodes, start), unit = fields(b), unit_of(b)
    ways = [(v, list_cases.units(bits, unit), nxt) for v, (_, _, bits, nxt) in zip(sources(nodes), links)]
    finals = [list_cases.units(bits, unit) if mark else None for _, mark, bits in nodes]
    costs, readings, _, _ = Search(ways, finals, start, n, True).run()
    return [(tuple(way), k) for way, k in zip(readings, costs)]

def differing(b, n, distances, nodes, links, taken, result):
    """what differs, and whether the Rust listed an infinite reading"""
    if input_number(b): return ['not an accepted sheet'], False
    told = {'distances': distance_cases.matched(distances) == distance_cases.outcome(b, 1 << 20, 1 << 20)[2]}
    expected = list_cases.made(b, n, True)
    told.update(zip(('nodes', 'links', 'taken', 'result'), (x == y for x, y in zip((nodes, links, taken, result), expected))))
    readings = list_cases.listed(n, links, result)
    finite = [reading for reading in readings if reading[1] < INF]
    if finite != readings: told['finite readings'] = (finite, taken) == (list_cases.readings(b, n), list_cases.made(b, n)[2])
    list_cases.made.cache_clear()
    if n > 1: told['readings'] = readings == (searched(b, n) if list_cases.best(b) else [])
    return [what for what, same in told.items() if not same], finite != readings

count = wrong = listed = infinite = longer = 0
for line in sys.stdin:
    sheet, n, distances, nodes, links, taken, result = line.split()
    faults, cut = differing(unhex(sheet), int(n), unhex(distances), int(nodes), int(links), int(taken), unhex(result))
    count, wrong, listed, infinite = count + 1, wrong + bool(faults), listed + (int(nodes) > 0), infinite + cut
    longer += form_of(unhex(sheet)) is not None
    if faults: print('differs:', *faults, '|', line.strip())
print(f'{count} cases, {longer} of the longer trailer, {listed} with a reading, {infinite} with an infinite one in the Rust, {wrong} differ')
sys.exit(wrong > 0)
