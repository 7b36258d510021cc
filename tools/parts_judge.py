#!/usr/bin/env python3
"""Judges the call for the two parts of a machine. What yeldmur_split answers is held to parts.py, for any byte string and node: the number, the two
counts behind their pointers, every byte of the result area and of what stands around it, and the sheet itself, also where it is refused. parts.py
follows the text of the requirements and shares nothing with the library.

    python3 tools/parts_judge.py [--seed S] [--sheets N] LIBRARY.so

Sheets are drawn, most of them to narrow to the node that is asked for, or to fall short of it by one thing, and some damaged; each is handed over
with a result area just long enough, with one a byte short, and with another. It ends when N sheets were judged; the same seed draws the same. On
the first difference it prints the sheet, made smaller as far as it goes, and exits with 1.
"""
import ctypes, os, random, sys, time
from collections import Counter
sys.dont_write_bytecode = True
from drawn_parts import AMISS, OVER, damaged, joined, wide
from judging import Difference, changed, conduct, counted
from parts import made, outcome
from product_judge import GUARD, MARKS, simpler
from sheets import A, A64, A256, CHAIN, E, EMPTY, FINE, NODES, NONE, fields, longer, read_number, written

# what stands behind the pointers before a call
COUNTS = 0xA5C30F1E, 0x5A3CF0E1
# the numbers that a run must have seen
NUMBERS = 0, 1, 14, 2, 3, 4, 5, 6, 13, 21

class Library:
    def __init__(self, path):
        self.function = ctypes.CDLL(os.path.abspath(path)).yeldmur_split
        self.function.argtypes = [ctypes.c_void_p, ctypes.c_size_t, ctypes.c_uint32, ctypes.c_void_p, ctypes.c_size_t] + [ctypes.POINTER(ctypes.c_uint32)] * 2
        self.function.restype = ctypes.c_uint32
        self.memory, self.counts = ctypes.create_string_buffer(len(MARKS) + 4096), [ctypes.c_uint32(), ctypes.c_uint32()]

    def laid(self, b, room, shift):
        """the memory before a call, and where the sheet and the area begin"""
        at = GUARD + shift
        area = at + len(b) + GUARD
        before = bytearray(MARKS[:area + room + GUARD])
        before[at:at + len(b)] = b
        return bytes(before), (at, area)

    def answer(self, b, c, room, shift):
        """the number, the two counts, and the memory afterwards"""
        before, places = self.laid(b, room, shift)
        ctypes.memmove(self.memory, before, len(before))
        for count, old in zip(self.counts, COUNTS): count.value = old
        at, area = (ctypes.addressof(self.memory) + place for place in places)
        number = self.function(at, len(b), c, area, room, *map(ctypes.byref, self.counts))
        return number, tuple(count.value for count in self.counts), ctypes.string_at(self.memory, len(before))

    def due(self, b, c, room, shift):
        """what the answer must be"""
        before, (_, area) = self.laid(b, room, shift)
        number, counts, answer = outcome(b, c, room)
        return number, counts or COUNTS, before[:area] + answer + before[area + len(answer):]

class Judge:
    def __init__(self, library, seed):
        self.library, self.rng = library, random.Random(seed)
        self.kinds, self.sheets, self.calls = Counter(), Counter(), Counter()

    def compare(self, b, c, room):
        call = b, c, room, self.rng.randrange(8)
        due = self.library.due(*call)
        if self.library.answer(*call) != due: raise Difference(b, c)
        self.calls[due[0]] += 1

    def sheet(self, kind, b, c):
        """in areas just long enough, a byte short, and another"""
        number, _, answer = made(b, c)
        size, most = len(answer), self.rng.randint(1, 99)
        others = 0, size + 1, size + most, self.rng.randint(0, size), size + 8 * most
        for room in {size, size - 1 if size else most, self.rng.choice(others)}: self.compare(b, c, room)
        self.kinds[kind] += 1
        self.sheets[number] += 1

    def drawn(self):
        """a sheet and a node, and what they are; damaged ones are at times amiss, too"""
        share, r = self.rng.random(), self.rng
        b, c = wide(r) if share < .005 else joined(r)
        kind = 'about the limits' if share < .005 else 'narrowing'
        if share % .1 < .04: return kind, b, c
        how = r.choice(AMISS)
        if share % .1 < .08: return f'{kind}, {how.__name__.replace("_", " ")}', *how(r, b, c)
        return f'{kind}, damaged', *damaged(r, *(how(r, b, c) if r.random() < .4 else (b, c)))

    def run(self, sheets):
        for b in A, E, EMPTY, CHAIN, *OVER, A64, A256, longer(EMPTY, 256), FINE, longer(A, 128):
            for c in 0, 1, 2, 3, 4, NODES - 1, NODES, 2 ** 31, NONE: self.sheet('stated', b, c)
        while self.kinds.total() < sheets: self.sheet(*self.drawn())

def differing(library, b, c):
    """a call on this sheet that differs, or None"""
    size = len(made(b, c)[2])
    calls = ((b, c, room, 0) for room in (size, max(0, size - 1), size + 1, size + 40, 0))
    return next((call for call in calls if library.answer(*call) != library.due(*call)), None)

def reduced(library, b, c, seconds=10):
    """a sheet that differs, and cannot be made simpler"""
    end = time.monotonic() + seconds
    def step():
        for other in simpler(b):
            if time.monotonic() > end: return None
            if differing(library, other, c): return other
    while other := step(): b = other
    return b

def print_difference(judge, b, c):
    library = judge.library
    if differing(library, b, c): b = reduced(library, b, c)
    print(f'the call differs, with bytes as sheets.py writes them: node {c}, a sheet of {len(b)} bytes:', written(b))
    if read_number(b) == 0: print('  links, nodes and start:', *fields(b))
    call = differing(library, b, c)
    if call is None: return
    (number, counts, due), (other, told_counts, told), (_, area) = library.due(*call), library.answer(*call), library.laid(b, *call[2:])[1]
    print(f'  result area: {call[2]} bytes')
    print(f'  due: number {number}, counts {counts}, answer', written(outcome(*call[:3])[2]))
    print(f'  told: number {other}, counts {told_counts}; {changed(due, told, area)}')

def print_figures(judge):
    print(f'{judge.kinds.total():,} sheets, {counted(judge.kinds)}')
    print(f'  by number: {counted(judge.sheets)}')
    print(f'{judge.calls.total():,} calls, by number: {counted(judge.calls)}')

def main():
    conduct('Holds the call for the two parts of a machine to a judge of its own.', 'sheets', 4000, lambda library, seed: Judge(Library(library), seed),
            print_difference, print_figures, unseen=lambda judge: [str(number) for number in NUMBERS if not judge.calls[number]])

if __name__ == '__main__': main()
