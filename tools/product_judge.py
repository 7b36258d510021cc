#!/usr/bin/env python3
"""Judges the call for what two sheets both allow. What yeldmur_two_probes answers is held to products.py, for any two byte strings: the number, the
size behind its pointer, every byte of the result area and of what stands around it, and the sheets themselves, also where it is refused. The
readings of an answer are held to the pairs of readings with the same labels, with their costs. products.py follows the text of the requirements
and shares nothing with the library.

    python3 tools/product_judge.py [--seed S] [--pairs N] LIBRARY.so

Pairs are drawn, most of them small and of few labels, some about the limits, and a quarter damaged; each is handed over with a result area just
long enough, with one a byte short, and with another. It ends when N pairs were judged; the same seed draws the same. On the first difference it
prints the pair, made smaller as far as it goes, and exits with 1.
"""
import ctypes, os, random, sys, time
from collections import Counter
from itertools import chain
sys.dont_write_bytecode = True
from drawn_pairs import OVER, damaged_pair, drawn_pair, mislabelled, parallel_pair, wide_pair
from judging import Difference, changed, conduct, counted
from products import made, outcome, paired, readings
from sheets import (A, A64, A256, CHAIN, E, EMPTY, FINE, LINKS, LONG, NODES, NONE, fields, form_of, input_number, longer, read_number, sheet, sources, with_form,
                    written)

# what stands behind the pointer before a call, and in the memory that it is lent, with bytes on both sides that are not
SIZE, GUARD = 0xA5C30F1E5A3CF0E1, 48
LONGEST = 16 * LINKS + 12 * NODES + LONG
MARKS = random.Random(7).randbytes(1024) * (3 * LONGEST // 1024 + 1)

# the numbers that a run must have seen
NUMBERS = 0, 1, 14, 2, 3, 4, 5, 6, 10, 11, 12, 21

class Library:
    def __init__(self, path):
        self.function = ctypes.CDLL(os.path.abspath(path)).yeldmur_two_probes
        self.function.argtypes = [ctypes.c_void_p, ctypes.c_size_t] * 3 + [ctypes.POINTER(ctypes.c_uint64)]
        self.function.restype = ctypes.c_uint32
        self.memory, self.size = ctypes.create_string_buffer(len(MARKS) + 4096), ctypes.c_uint64()

    def laid(self, first, second, room, shift):
        """the memory before a call, and where the sheets and the area begin; a sheet with itself is handed over once"""
        at = GUARD + shift
        then = at if second is first else at + len(first) + GUARD
        area = then + len(second) + GUARD
        before = bytearray(MARKS[:area + room + GUARD])
        before[at:at + len(first)], before[then:then + len(second)] = first, second
        return bytes(before), (at, then, area)

    def answer(self, first, second, room, shift):
        """the number, the size, and the memory afterwards"""
        before, places = self.laid(first, second, room, shift)
        ctypes.memmove(self.memory, before, len(before))
        self.size.value = SIZE
        at, then, area = (ctypes.addressof(self.memory) + place for place in places)
        number = self.function(at, len(first), then, len(second), area, room, ctypes.byref(self.size))
        return number, self.size.value, ctypes.string_at(self.memory, len(before))

    def due(self, first, second, room, shift):
        """what the answer must be"""
        before, (_, _, area) = self.laid(first, second, room, shift)
        number, answer = outcome(first, second, room)
        return number, SIZE if number else len(answer), before[:area] + answer + before[area + len(answer):]

class Judge:
    def __init__(self, library, seed):
        self.library, self.rng = library, random.Random(seed)
        self.kinds, self.pairs, self.calls, self.readings = Counter(), Counter(), Counter(), 0

    def compare(self, first, second, room):
        call = first, second, room, self.rng.randrange(8)
        due = self.library.due(*call)
        if self.library.answer(*call) != due: raise Difference('the call', first, second)
        self.calls[due[0]] += 1

    def costs(self, first, second):
        """of an answer as it was held to be"""
        b = made(first, second)[1]
        told = readings(b)
        if input_number(b) or told != paired(first, second): raise Difference('the readings', first, second)
        self.readings += told.total()

    def pair(self, kind, first, second):
        """in areas just long enough, a byte short, and another"""
        number, answer = made(first, second)
        size, most = len(answer), self.rng.randint(1, 99)
        others = 0, size + 1, size + most, self.rng.randint(0, size), size + 8 * most
        for room in {size, size - 1 if size else most, self.rng.choice(others)}: self.compare(first, second, room)
        if number == 0 and size < 20000: self.costs(first, second)
        self.kinds[kind] += 1
        self.pairs[number] += 1

    def large(self):
        """two sheets about the limits, at times mislabelled"""
        kind, draw = self.rng.choice((('about the link limit', parallel_pair),) + 3 * (('about the node limit', wide_pair),))
        first, second = draw(self.rng)
        which = self.rng.random()
        if which < .1: first = mislabelled(self.rng, first)
        elif which < .2: second = mislabelled(self.rng, second)
        return kind, first, second

    def drawn(self):
        """two sheets, and what they are"""
        share = self.rng.random()
        if share < .012: return self.large()
        first, second = drawn_pair(self.rng)
        if share < .75: return 'small', first, second
        if share < .752: first = self.rng.choice(OVER)
        elif share < .754: second = self.rng.choice(OVER)
        return 'damaged', *damaged_pair(self.rng, first, second)

    def run(self, pairs):
        told = A, E, EMPTY, CHAIN, *OVER, A64, A256, longer(EMPTY, 256), FINE, longer(A, 128)
        for first in told:
            for second in told: self.pair('stated', first, second)
        while self.kinds.total() < pairs:
            self.pair(*self.drawn())

def simpler(b):
    """sheets with some links less, with the last nodes, a mark or a weight less, or with the shorter trailer; of bytes that are no sheet none"""
    if read_number(b) == 1: return
    (links, nodes, start), form = fields(b), form_of(b)
    if form is not None: yield with_form(b, None)
    leaves, size = sources(nodes), len(links)
    while size:
        for at in range(0, len(links), size):
            counts = Counter(leaves[:at] + leaves[at + size:])
            yield sheet(links[:at] + links[at + size:], [(counts[v], *final) for v, (_, *final) in enumerate(nodes)], start, form)
        size //= 2
    used = 1 + max([v for v, node in enumerate(nodes) if node[0]] + [link[3] for link in links] + [-1 if start == NONE else start, -1])
    for n in {used, (used + len(nodes)) // 2, len(nodes) - 1}:
        if used <= n < len(nodes): yield sheet(links, nodes[:n], start, form)
    for l, (ilabel, olabel, bits, nxt) in enumerate(links):
        if bits: yield sheet(links[:l] + [(ilabel, olabel, 0, nxt)] + links[l + 1:], nodes, start, form)
    for v, (count, mark, bits) in enumerate(nodes):
        if mark: yield sheet(links, nodes[:v] + [(count, 0, 0)] + nodes[v + 1:], start, form)
        if bits: yield sheet(links, nodes[:v] + [(count, mark, 0)] + nodes[v + 1:], start, form)

def differing(library, first, second):
    """a call on these sheets that differs, or None"""
    size = len(made(first, second)[1])
    calls = ((first, second, room, 0) for room in (size, max(0, size - 1), size + 1, size + 40, 0))
    return next((call for call in calls if library.answer(*call) != library.due(*call)), None)

def reduced(library, first, second, seconds=10):
    """a pair that differs, and of which no part can be made simpler alone"""
    end = time.monotonic() + seconds
    def step():
        for pair in chain(((b, second) for b in simpler(first)), ((first, b) for b in simpler(second))):
            if time.monotonic() > end: return None
            if differing(library, *pair): return pair
    while pair := step(): first, second = pair
    return first, second

def print_difference(judge, what, first, second):
    library = judge.library
    if what == 'the call' and differing(library, first, second): first, second = reduced(library, first, second)
    print(f'{what} differs, with bytes as sheets.py writes them:')
    for name, b in ('first', first), ('second', second): print(f'  {name}, {len(b)} bytes:', written(b))
    call = differing(library, first, second)
    if call is None: return
    (number, size, due), (other, told_size, told), (*_, area) = library.due(*call), library.answer(*call), library.laid(*call)[1]
    print(f'  result area: {call[2]} bytes')
    print(f'  due: number {number}, size {size:#x}, answer', written(outcome(*call[:3])[1]))
    print(f'  told: number {other}, size {told_size:#x}; {changed(due, told, area)}')

def print_figures(judge):
    print(f'{judge.kinds.total():,} pairs, {counted(judge.kinds)}')
    print(f'  by number: {counted(judge.pairs)}')
    print(f'{judge.calls.total():,} calls, by number: {counted(judge.calls)}')
    print(f'{judge.readings:,} readings of answers are those of pairs')

def main():
    conduct('Holds the call for what two sheets both allow to a judge of its own.', 'pairs', 4000, lambda library, seed: Judge(Library(library), seed),
            print_difference, print_figures, unseen=lambda judge: [str(number) for number in NUMBERS if not judge.calls[number]])

if __name__ == '__main__': main()
