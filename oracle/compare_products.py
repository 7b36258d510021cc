#!/usr/bin/env python3
"""Runs the library's call for what two sheets both allow beside OpenFst's fstcompose, on drawn pairs of accepted sheets whose labels are equal
on both sides, not 0 and below 2^31. OpenFst numbers its states anew and leaves out those on no way from the start to a final one, so that

- the readings are compared: how many have these labels and this cost, of each row of labels and each cost that is finite. Of larger machines, one
  pair in twenty, it is how many have each cost;
- the n cheapest that fstshortestpath lists, n from 1 to 64: their costs, and that they are readings;
- how many nodes and how many links, barred ones too, lie on ways from the start to a node that is final with a finite weight.

The rows that OpenFst compiles are those of tools/rows.py: of a sheet of unit 256 those with as many sixty-fourths at each weight. A pair that tools/products.py refuses, by 11 or 12, OpenFst composes; the library's
number is compared alone.

    python3 compare_products.py SEED COUNT LIBRARY.so   the shared library, which `make shared` writes to target/package
    python3 compare_products.py SEED COUNT              tools/products.py in its place
"""
import collections, functools, itertools, os, random, subprocess, sys, tempfile
from fractions import Fraction
HERE = os.path.dirname(os.path.abspath(__file__))
sys.path.insert(0, os.path.join(HERE, '..', 'tools'))
from drawn_pairs import LABELS, drawn_pair
from product_judge import GUARD, LONGEST, Library
from products import outcome, units
from rows import text_of
from sheets import BARRED, NONE, f, fields, in_form, sources, unit_of, written

# a machine: its start or None, the links out of each node (node, label, bits, next), the bits of final nodes, and its unit
Machine = collections.namedtuple('Machine', 'start out finals unit')

def machine_of(links, start, finals, unit=64):
    out = collections.defaultdict(list)
    for link in links: out[link[0]].append(link)
    return Machine(start, out, finals, unit)

def of_sheet(b):
    links, nodes, start = fields(b)
    ways = [(v, label, bits, nxt) for v, (label, _, bits, nxt) in zip(sources(nodes), links)]
    return machine_of(ways, None if start == NONE else start, {v: bits for v, (_, mark, bits) in enumerate(nodes) if mark and bits != BARRED}, unit_of(b))

def text(b):
    """the rows of a sheet for fstcompile, which knows of no unit; a start without a row of its own has one of infinite weight, which makes it no final node"""
    _, nodes, start = fields(b)
    if start == NONE: return b''
    return (b'' if any(nodes[start][:2]) else b'%d\tInfinity\n' % start) + text_of(in_form(b, None))

def bits_of(weight): return BARRED if weight == 'Infinity' else f(float(Fraction(weight)))

def of_printed(printed):
    """the machine that fstprint prints, its start's rows first"""
    rows = [row.split('\t') for row in printed.splitlines()]
    links = [(int(row[0]), int(row[2]), bits_of((row + ['0'])[4]), int(row[1])) for row in rows if len(row) > 2]
    if any(row[2] != row[3] for row in rows if len(row) > 2): raise ValueError('labels that differ')
    finals = {int(row[0]): bits_of((row + ['0'])[1]) for row in rows if len(row) < 3}
    return machine_of(links, int(rows[0][0]) if rows else None, {v: bits for v, bits in finals.items() if bits != BARRED})

class OpenFst:
    """the programs, over files in a scratch folder"""
    def __init__(self, folder): self.folder = folder

    def run(self, made, program, *arguments, given=None):
        paths = [argument if argument.startswith('-') else os.path.join(self.folder, argument) for argument in arguments]
        done = subprocess.run([program, *paths], input=given, capture_output=True, check=True).stdout
        with open(os.path.join(self.folder, made), 'wb') as file: file.write(done)

    def printed(self, name):
        return of_printed(subprocess.run(['fstprint', os.path.join(self.folder, name)], capture_output=True, text=True, check=True).stdout)

    def composed(self, first, second):
        self.run('first', 'fstcompile', given=text(first))
        self.run('second', 'fstcompile', given=text(second))
        self.run('sorted', 'fstarcsort', '--sort_type=ilabel', 'second')
        self.run('both', 'fstcompose', 'first', 'sorted')
        return self.printed('both')

    def cheapest(self, n):
        """of what was composed last; its links without a label are links of label 0"""
        self.run('cheapest', 'fstshortestpath', f'--nshortest={n}', 'both')
        return self.printed('cheapest')

def readings(machine, with_labels):
    """how many readings there are of these labels, or of any, and of this cost in units"""
    @functools.lru_cache(None)
    def behind(v):
        told = collections.Counter({((), units(machine.finals[v], machine.unit)): 1} if v in machine.finals else {})
        for _, label, bits, nxt in machine.out[v]:
            if bits == BARRED: continue
            for (labels, cost), count in behind(nxt).items(): told[(label, *labels) if with_labels and label else labels, cost + units(bits, machine.unit)] += count
        return told
    return collections.Counter() if machine.start is None else behind(machine.start)

def connected(machine):
    """how many nodes and links lie on ways from the start to a final node"""
    if machine.start is None: return 0, 0
    @functools.lru_cache(None)
    def ends(v): return v in machine.finals or any(ends(link[3]) for link in machine.out[v])
    seen, new = set(), [machine.start] if ends(machine.start) else []
    while new:
        v = new.pop()
        if v not in seen:
            seen.add(v)
            new += [link[3] for link in machine.out[v] if ends(link[3])]
    return len(seen), sum(ends(link[3]) for v in seen for link in machine.out[v])

def costs(told): return sorted(itertools.chain.from_iterable([cost] * count for (_, cost), count in told.items()))

class Run:
    def __init__(self, library, openfst, seed):
        self.library, self.openfst, self.rng = library, openfst, random.Random(seed)
        self.counts, self.differences = collections.Counter(), 0

    def differs(self, what, first, second):
        self.differences += 1
        if self.differences <= 20: print('differs:', what, written(first), written(second))

    def answered(self, first, second):
        """the number and the sheet of both, of the library or the script"""
        if self.library is None: return outcome(first, second, LONGEST)
        number, size, memory = self.library.answer(first, second, LONGEST, 0)
        return number, b'' if number else memory[-LONGEST - GUARD:][:size]

    def pair(self, larger):
        first, second = drawn_pair(self.rng, *((14, 40) if larger else (6, 10)), LABELS)
        number, both = self.answered(first, second)
        self.counts['pairs'] += 1
        self.counts['of unit 256'] += unit_of(first) == unit_of(second) == 256
        if number != outcome(first, second, LONGEST)[0]: return self.differs(f'number {number}', first, second)
        if number: self.counts[f'refused by {number}'] += 1
        else: self.compare(of_sheet(both), self.openfst.composed(first, second), larger, first, second)

    def compare(self, ours, theirs, larger, first, second):
        told, made = (readings(machine, not larger) for machine in (ours, theirs))
        n = self.rng.choice((1, 2, 3, self.rng.randint(1, 64)))
        cheapest = readings(self.openfst.cheapest(n), not larger)
        self.counts.update({'with a reading': bool(told), 'readings': told.total(), 'readings listed': cheapest.total()})
        if told != made: self.differs('the readings', first, second)
        if costs(cheapest) != cheapest_of(told, n): self.differs(f'the costs of the {n} cheapest', first, second)
        if not cheapest <= told: self.differs(f'a reading of the {n} cheapest', first, second)
        if connected(ours) != connected(theirs): self.differs('the nodes and links on ways', first, second)

def cheapest_of(told, n):
    """the n least costs"""
    least = []
    for (_, cost), count in sorted(told.items(), key=lambda item: item[0][1]): least += [cost] * min(count, n - len(least))
    return least

def main(seed, count, library=None):
    with tempfile.TemporaryDirectory() as folder:
        run = Run(library and Library(library), OpenFst(folder), seed)
        for i in range(count): run.pair(i % 20 == 19)
    print(', '.join(f'{n:,} {what}' for what, n in run.counts.items()) + f', {run.differences} differences')
    return run.differences

if __name__ == '__main__':
    if len(sys.argv) in (3, 4): sys.exit(main(int(sys.argv[1]), int(sys.argv[2]), *sys.argv[3:]) > 0)
    else: sys.exit(__doc__)
