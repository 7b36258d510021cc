#!/usr/bin/env python3
"""Judges the lists of one sheet for every n from 1 to 64. They are made by the library's own calls, in areas that hold anything and are often longer, and
read back. They are held to costs that are found here, apart from it: each reading is one of the sheet at the cost told, none stands twice, and the costs
for n are the n least of all. Then each list is held to each longer one, as the header says: the costs for k are the first k of those for n, and the best
path costs what heads them all; of each cost below the shorter list's last both hold the same readings; one that costs what no other does has the same rank
on both; one on the shorter list is on the longer, or that is full and holds none that is dearer; and where the cost listed behind the first k for n, if
there is one, is higher than theirs, these k readings are those of the list for k. The order of readings that tie is for replay_lists and the oracle.

    python3 tools/nested_judge.py [--seed S] [--machines N] [--smaller] LIBRARY.so

It ends when N drawn machines of either form were judged, besides some that are stated; the same seed draws the same. With --smaller it also goes through
every machine of fewer than 88 bytes with a start, with weights of -1, 0 and 1 units and barred ones: on none do readings differ between two lists, so that
no sheet shorter than the one of 88 bytes which is stated shows it. On the first difference it prints the sheet and exits with 1.
"""
import ctypes, itertools, random, sys
from collections import Counter
sys.dont_write_bytecode = True
from judging import Difference, conduct
from readback_judge import INF, LISTS, SHUT, TIES, Library, drawn, reading_in, searched, small, weight_units
from sheets import A, A64, A256, CHAIN, E, FORMS, climbing, in_form, written

# a line of three nodes, each final, all of weight 0: the reading without links is the best, and heads no longer list
LINE = climbing(3, [(0, 0, 1), (1, 0, 2)], 0, {0: 0, 1: 0, 2: 0})
# six readings that tie; a negative best; a reading that would come second but for a barred link
SIX = climbing(3, [(0, 0, 1), (0, 0, 1), (1, 0, 2), (1, 0, 2), (1, 0, 2)], 0)
NEGATIVE = climbing(3, [(0, -1, 1), (0, 2, 2), (1, -.5, 2)], 0, {1: .25, 2: -1})
SECOND = climbing(2, [(0, 1, 1), (0, INF, 1), (0, 3, 1)], 0)
STATED = A, A64, A256, E, in_form(E, 256), LINE, in_form(LINE, 256), SIX, TIES, NEGATIVE, in_form(NEGATIVE, 256), SECOND, SHUT

def least_costs(sheet, most):
    """the least costs of all readings, node by node: links climb, so that a node's runs are all made before a link leaves it"""
    links, leaves, nodes, start, unit = searched(sheet)[1]
    runs = [[0] if v == start else [] for v in range(len(nodes))]
    for source, (_, _, bits, target) in zip(leaves, links):
        weight = weight_units(bits, unit)
        if weight < INF: runs[target] = sorted(runs[target] + [cost + weight for cost in runs[source]])[:most]
    ends = [(costs, weight_units(bits, unit)) for costs, (_, mark, bits) in zip(runs, nodes) if mark]
    return sorted(cost + last for costs, last in ends if last < INF for cost in costs)[:most]

def smaller():
    """Every machine that is shorter than LINE: without links up to five nodes, with one up to four, with two up to two. A longer trailer has four bytes
    more, and without a start or without nodes there is no reading."""
    weights = -1 / 64, 0, 1 / 64, INF
    for nodes, count in ((1, 0), (2, 0), (3, 0), (4, 0), (5, 0), (2, 1), (3, 1), (4, 1), (2, 2)):
        ways = [(s, t) for s in range(nodes) for t in range(s + 1, nodes)]
        for chosen in itertools.combinations_with_replacement(ways, count):
            for weighed in itertools.product(weights, repeat=count):
                links = [(s, w, t) for (s, t), w in zip(chosen, weighed)]
                for ends in itertools.product((None, *weights), repeat=nodes):
                    finals = {v: w for v, w in enumerate(ends) if w is not None}
                    yield from (climbing(nodes, links, start, finals) for start in range(nodes))

class Lender(Library):
    """lends areas that hold anything, and more than is needed half of the time"""
    def __init__(self, path, rng):
        super().__init__(path)
        self.rng = rng

    def areas(self, sheet, n):
        work, words, result, size = super().areas(sheet, n)
        more = self.rng.choice((0, 0, 1, 40))
        words, size = words.value + more, size.value + more
        filled = (ctypes.c_uint32 * (words + 1)).from_buffer_copy(self.rng.randbytes(4 * words + 4))
        return filled, ctypes.c_size_t(words), ctypes.create_string_buffer(self.rng.randbytes(size), size + 1), ctypes.c_size_t(size)

class Judge:
    def __init__(self, path, seed, through_smaller=False):
        self.rng, self.figures, self.through_smaller = random.Random(seed), Counter(), through_smaller
        self.library = Lender(path, self.rng)

    def listed(self, b, n, least):
        """a list as it is told: readings of the sheet, each once, at the least costs"""
        readings, machine = self.library.readings_of(b, n), searched(b)[1]
        if any(reading_in(machine, x.run) != (x.cost, x.end) for x in readings): raise Difference(f'the readings listed for {n}', b)
        if len({x.run for x in readings}) < len(readings): raise Difference(f'the list for {n}, with a reading twice,', b)
        if [x.cost for x in readings] != least[:n]: raise Difference(f'the costs for {n}', b)
        return readings

    def beside(self, b, k, n, short, long, alone):
        """the list for k beside one for n, and the costs that no two readings share"""
        def amiss(what): raise Difference(f'{what} for {k} and {n}', b)
        front = long[:k]
        if [x.cost for x in short] != [x.cost for x in front]: amiss('the costs')
        if {x for x in short if x.cost < short[-1].cost} != {x for x in front if x.cost < short[-1].cost}: amiss('readings below the last cost')
        if any(x != y for x, y in zip(short, front) if y.cost in alone): amiss('a rank that nothing ties with')
        if any(x not in long and (len(long) < n or long[-1].cost > x.cost) for x in short): amiss('a reading that is not kept')
        self.figures['pairs of lists'] += 1
        if len(long) <= k or long[k].cost > long[k - 1].cost:
            if {*short} != {*front}: amiss('readings that nothing behind them ties with')
            self.figures['where nothing behind the front ties with it'] += 1
            self.figures['of these in another order'] += short != front
        self.figures['with other readings in front'] += short != front
        self.figures['of them with readings that the longer has not'] += any(x not in long for x in short)

    def machine(self, b, counts=range(1, LISTS + 1)):
        least = least_costs(b, LISTS + 1)
        lists = {n: self.listed(b, n, least) for n in counts}
        # where there are more than 64 costs, the last of these may stand once more
        often = Counter(least)
        alone = {cost for cost in least if often[cost] == 1 and (len(least) <= LISTS or cost < least[-1])}
        for k, n in itertools.combinations(counts, 2): self.beside(b, k, n, lists[k], lists[n], alone)
        n = self.rng.choice(counts)
        if self.library.readings_of(b, n) != lists[n]: raise Difference(f'two lists for {n}', b)
        self.figures['machines'] += 1
        self.figures['without a reading'] += not least

    def run(self, machines):
        for b in STATED: self.machine(b)
        self.machine(CHAIN, (1, 2, LISTS))
        if self.library.readings_of(LINE, 1) == self.library.readings_of(LINE, 2)[:1]: raise Difference('no readings', LINE)
        for i in range(machines):
            self.machine(small(self.rng))
            if i % 20 == 0: self.machine(in_form(drawn(self.rng, 60, 200, True), self.rng.choice(FORMS)))
        if self.through_smaller: self.smaller()

    def smaller(self):
        for b in smaller():
            assert len(b) < len(LINE)
            lists = [self.library.readings_of(b, n) for n in (1, 2, 3, 4, LISTS)]
            if any(short != long[:len(short)] for short, long in itertools.combinations(lists, 2)): raise Difference('readings', b)
            self.figures['smaller machines'] += 1

def print_difference(judge, what, b):
    print(f'{what} differ, of a sheet of {len(b)} bytes, as sheets.py writes them:', written(b))

def main():
    seen = 'with other readings in front', 'of them with readings that the longer has not', 'where nothing behind the front ties with it', 'without a reading'
    conduct('Holds the lists of one sheet for every n to each other.', 'machines', 60, Judge, print_difference,
            lambda judge: print(', '.join(f'{what}: {count:,}' for what, count in judge.figures.items())), judged=lambda judge: judge.figures['machines'],
            unseen=lambda judge: [what for what in seen if not judge.figures[what]], flags=[('smaller', 'goes through every machine of fewer than 88 bytes, too')])

if __name__ == '__main__': main()
