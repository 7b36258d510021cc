#!/usr/bin/env python3
"""Judges the lists of the two parts of a machine. Of machines that narrow to a node yeldmur_split writes the parts, and the library's own calls make
and read the lists of the whole and of each part, as written, for every n from 1 to 64. The costs of the whole must be the n least sums of one cost of
each part's list, or all of them where there are fewer; each reading of the whole, cut at the node, must be one of each part by the words behind the
parts; and these words must lead to equal links. Costs are summed here, in whole units. It shares nothing with the library.

    python3 tools/part_lists_judge.py [--seed S] [--machines N] LIBRARY.so

It ends when N drawn machines were judged, besides some that are stated; the same seed draws the same. On the first difference it prints the machine
and exits with 1.
"""
import os, random, struct, sys
from collections import Counter, namedtuple
sys.dont_write_bytecode = True
import parts_judge, readback_judge
from drawn_parts import joined
from judging import Difference, conduct
from parts import least_sums
from product_judge import GUARD
from readback_judge import LISTS, reading_in, searched
from sheets import A, A64, A256, CHAIN, E, NODES, climbing, fields, form_of, in_form, input_number, sources, trailer_size, written

# a part: its sheet, and the number that each of its links has in the whole
Part = namedtuple('Part', 'sheet numbers')

# three links to node 1 and two on, many parallel ones of equal weight, and a line with all weights of 0
DIAMOND = climbing(3, [(0, 100 / 64, 1), (0, 102 / 64, 1), (0, 110 / 64, 1), (1, 11 / 64, 2), (1, 21 / 64, 2)], 0)
EQUAL = climbing(3, [(0, 1, 1)] * 70 + [(1, 2, 2)] * 90, 0, {1: 1, 2: 0})
ZEROS = climbing(6, [(v, 0, v + 1) for v in range(5) for _ in range(2)], 0)
# 125 readings in each part, of many costs and many equal ones, and barred links among them
DEEP = climbing(7, [(0, float('inf'), 1), (4, float('inf'), 5)] + [(v, (v + 1) * k % 7, v + 1) for v in range(6) for k in range(5)], 0)
STATED = ((A, 0), (A256, 3), (A64, 3), (in_form(E, 256), 0), (E, 1), (in_form(DIAMOND, 256), 1), (EQUAL, 1), *((ZEROS, c) for c in range(6)), (in_form(DEEP, 64), 3),
          (in_form(CHAIN, 256), NODES // 2))

def parts_of(splits, b, c):
    """the parts as the library writes them, found by the counts that it tells"""
    links, nodes, _ = fields(b)
    trailer = trailer_size(b)
    room = 20 * len(links) + 12 * (len(nodes) + 1) + 2 * trailer
    number, counts, memory = splits.answer(b, c, room, 0)
    if number or sum(counts) != len(links): raise Difference('the call', b, c)
    rest, out = memory[len(memory) - room - GUARD:], []
    for count, own in zip(counts, (c + 1, len(nodes) - c)):
        size = 16 * count + 12 * own + trailer
        if input_number(rest[:size]) or form_of(rest[:size]) != form_of(b): raise Difference('a part, which is no sheet,', b, c)
        out.append(Part(rest[:size], struct.unpack_from(f'<{count}I', rest, size)))
        rest = rest[size + 4 * count:]
    return out

def leads_back(b, part, c):
    """whether each link of a part is that of its number in the whole, by labels, weight bits, source and next node; the part counts nodes from c"""
    def rows(sheet, at):
        links, nodes, _ = fields(sheet)
        return [(v + at, *link[:3], link[3] + at) for v, link in zip(sources(nodes), links)]
    whole = rows(b, 0)
    return [whole[l] if l < len(whole) else None for l in part.numbers] == rows(part.sheet, c)

class Judge:
    def __init__(self, path, seed):
        self.splits, self.lists, self.rng = parts_judge.Library(path), readback_judge.Library(os.path.abspath(path)), random.Random(seed)
        self.figures = Counter()

    def listed(self, b, n):
        """the list of a sheet: as it is told, with each cost that of its links"""
        readings, machine = self.lists.readings_of(b, n), searched(b)[1]
        for k, x in enumerate(readings):
            if reading_in(machine, x.run) != (x.cost, x.end): raise Difference(f'reading {k} for {n}', b, None)
        return readings

    def cut(self, parts, run):
        """the runs of the parts that a run of the whole is made of, or None"""
        places = [{number: l for l, number in enumerate(part.numbers)} for part in parts]
        runs = [tuple(place[number] for number in run if number in place) for place in places]
        return runs if self.joined(parts, *runs) == tuple(run) else None

    def joined(self, parts, low, high): return tuple(part.numbers[l] for part, run in zip(parts, (low, high)) for l in run)

    def lists_joined(self, b, c, parts, n):
        whole, low, high = (self.listed(sheet, n) for sheet in (b, parts[0].sheet, parts[1].sheet))
        def amiss(what): raise Difference(f'{what} for {n}', b, c)
        costs = [[x.cost for x in readings] for readings in (low, high)]
        if [x.cost for x in whole] != least_sums(n, *costs): amiss('the costs')
        for cost, run, _ in whole:
            runs = self.cut(parts, run) or amiss('a reading that is none of the parts')
            held = [reading_in(searched(part.sheet)[1], own) for part, own in zip(parts, runs)]
            if None in held or held[0][0] + held[1][0] != cost or held[0][1] != c: amiss('a reading that is none of the parts')
            for own, (total, _), readings, known in zip(runs, held, (low, high), costs):
                # a list with all readings holds this one, and a full one its cost
                if total not in known or len(readings) < n and (total, own) not in [(x.cost, x.run) for x in readings]: amiss('a reading that a part lists not')
        if len(whole) < n and {x.run for x in whole} != {self.joined(parts, x.run, y.run) for x in low for y in high}: amiss('the readings')
        self.figures['lists'] += 1
        self.figures['of them full'] += len(whole) == n
        self.figures['of them empty'] += not whole
        self.figures['readings'] += len(whole)

    def machine(self, b, c, counts=range(1, LISTS + 1)):
        parts = parts_of(self.splits, b, c)
        if not (leads_back(b, parts[0], 0) and leads_back(b, parts[1], c)): raise Difference('the words', b, c)
        for n in counts: self.lists_joined(b, c, parts, n)
        self.figures['machines'] += 1

    def drawn(self):
        """a machine that narrows, of which some list for 2 is not empty: of others few"""
        while True:
            b, c = joined(self.rng, 6, 12)
            if self.lists.list_of(b, 2).states or self.rng.random() < .1: return b, c

    def run(self, machines):
        for b, c in STATED: self.machine(b, c, range(1, LISTS + 1) if len(b) < 10000 else (1, 2))
        for i in range(machines):
            self.machine(*self.drawn())
            if i % 20 == 0: self.machine(*joined(self.rng, 200, 600), (1, 2, 3, LISTS))

def print_difference(judge, what, b, c):
    print(f'{what} differ: node {c}, a sheet of {len(b)} bytes, as sheets.py writes them:', written(b))
    print('  links, nodes and start:', *fields(b))

def main():
    conduct('Holds the lists of a machine to those of its two parts.', 'machines', 60, Judge, print_difference,
            lambda judge: print(', '.join(f'{what}: {count:,}' for what, count in judge.figures.items())), judged=lambda judge: judge.figures['machines'])

if __name__ == '__main__': main()
