#!/usr/bin/env python3
"""Judges the calls that read back. What yeldmur_readings, yeldmur_reading, yeldmur_distance, yeldmur_distance_in, yeldmur_sheet_counts,
yeldmur_unit, yeldmur_link and yeldmur_node answer is held to the functions below, for any bytes and numbers: the number, every value behind a pointer, and every word of the run's area, also
where it is refused. These functions follow include/yeldmur.h, docs/SHEET.md and the definitions in specs/, and share nothing with the library.

    python3 tools/readback_judge.py [--seed S] [--cases N] LIBRARY.so

Machines are drawn, and the library's own calls make their lists and distances, which are read back as they are and then damaged in many ways. Those of
small machines are held to search_oracle.py and sheets.py, too. It ends when N cases were judged; the same seed draws the same. On the first
difference it prints the call, made smaller as far as it goes, and exits with 1.
"""
import ctypes, functools, random, struct, sys, time
from collections import Counter, namedtuple
sys.dont_write_bytecode = True
from judging import Difference, conduct
from search_oracle import INF, Search
from sheets import (A, A256, BARRED, CHAIN, E, EMPTY, FINE, FORMS, LARGEST, LINKS, NODES, NONE, SHORT, UNITS, climbing, distances, f, fields, in_form,
                    input_number, longer, read_number, real, some_barred, sources, trailer_size, unit_of, with_form, with_word)

# the most readings that a list is asked for, and the most units of a sum
LISTS, SUMS = 64, 2 ** 24
# what stands behind the pointers before a call, and in the run's area, which has words on both sides that are not lent
OLD = 0x11111111, 0x22222222, 0x33333333, 0x44444444
GUARD = 4
AREA = struct.pack(f'<{NODES + 64}I', *(0x5A000000 + 3 * i for i in range(NODES + 64)))

# ---- what is due

def word(b, at): return int.from_bytes(b[at:at + 4], 'little')

def units(bits, most, unit):
    """the units of a weight's bits, or None where they are off the grid of so many units either way"""
    k = unit * real(bits)
    return int(k) if bits != 0x80000000 and abs(k) <= most and k.is_integer() else None

def weight_units(bits, unit):
    """the units of a weight of an accepted sheet, INF where it is barred"""
    return INF if bits == BARRED else units(bits, UNITS, unit)

def size_of(sheet):
    """the bytes of the trailer, as it is read: bytes that are laid out under neither are read by the shorter one"""
    return trailer_size(sheet) or SHORT

def refused(number, told): return number, *OLD[:told]

def counted(result, n, states, links, size=SHORT):
    """7, 30 or 0, and how many readings a result holds; where no sheet tells its trailer, it is long enough with the shorter one"""
    if n > LISTS: return refused(7, 1)
    count = 0 if states == 0 else 1 if n == 1 else word(result, 16 * links)
    if len(result) < 20 * links + 12 * states + size or count > n: return refused(30, 1)
    return 0, count

def way_of(result, n, states, links, k, size):
    """the input links repeated on the way of reading k, or None where that is no way: states fall, each by its only link, as far as the last"""
    behind, last, before = 16 * links + 12 * states, int(n != 1), 0 if n == 1 else word(result, 16 * links)
    words = behind + size
    if n == 1: state = word(result, behind + 16)
    else: state = word(result, 16 * k + 12) if k < links else 0
    way = []
    while state > last:
        link = before + state - 1 - last
        if state >= states or link >= links or word(result, 16 * link + 12) >= state: return None
        way.append(word(result, words + 4 * link))
        state = word(result, 16 * link + 12)
    return [number for number in way if number != NONE] if state == last else None

@functools.lru_cache(256)
def searched(sheet):
    """the number of 1, 14, 2 to 6 or 0, and the links, their sources, the nodes, the start and the unit of an accepted sheet"""
    number = input_number(sheet)
    if number: return number, None
    links, nodes, start = fields(sheet)
    return 0, (links, sources(nodes), nodes, start, unit_of(sheet))

def reading_in(machine, way):
    """the cost in units and the end of a run of links from the start to a final node, or None, also where that cost is infinite"""
    links, leaves, nodes, start, unit = machine
    node, cost = start, 0
    for l in way:
        if l >= len(links) or leaves[l] != node: return None
        cost, node = cost + weight_units(links[l][2], unit), links[l][3]
    if node == NONE or nodes[node][1] == 0: return None
    cost += weight_units(nodes[node][2], unit)
    return None if cost == INF else (cost, node)

def told_reading(sheet, n, result, states, links, k, room):
    """the number of 1, 14, 2 to 7, 30, 31 and 21, or 0, with the links, the cost and the end, and the links' numbers"""
    number, machine = searched(sheet)
    number, count = (number, 0) if number else counted(result, n, states, links, size_of(sheet))
    if number: return refused(number, 3), []
    if k >= count: return refused(31, 3), []
    way = way_of(result, n, states, links, k, size_of(sheet))
    held = None if way is None else reading_in(machine, way)
    if held is None: return refused(30, 3), []
    if len(way) > room: return refused(21, 3), []
    return (0, len(way), *held), way

def reading(*args):
    told, way = told_reading(*args)
    lent = 4 * GUARD
    return *told, AREA[:lent] + struct.pack(f'<{len(way)}I', *way) + AREA[lent + 4 * len(way):2 * lent + 4 * args[-1]]

def distance(result, values, node, unit=64):
    if len(result) < 8 * values: return refused(30, 2)
    if node >= values: return refused(31, 2)
    mark, bits = word(result, 8 * node), word(result, 8 * node + 4)
    k = units(bits, SUMS, unit) if mark == 1 else 0 if mark == bits == 0 else None
    return refused(30, 2) if k is None else (0, mark, k)

def distance_in(result, values, node, unit):
    return distance(result, values, node, unit) if unit in (64, 256) else refused(14, 2)

def unit_told(sheet):
    number = read_number(sheet)
    return refused(number, 1) if number else (0, unit_of(sheet))

def sheet_counts(sheet):
    number = read_number(sheet)
    if number: return refused(number, 4)
    links, nodes, start = fields(sheet)
    return 0, len(nodes), len(links), sum(mark for _, mark, _ in nodes), start

def stated(sheet, field):
    """a field of the trailer; 0 where the bytes have no room for one"""
    return word(sheet, len(sheet) - size_of(sheet) + 4 * field) if len(sheet) >= SHORT else 0

def kept_bits(bits):
    """weight bits as they are told: of bytes that are no sheet every NaN is the one that single precision is defined with"""
    return 0x7FC00000 if real(bits) != real(bits) else bits

def link(sheet, number):
    """of bytes that are no sheet, too: the links that the trailer states, where they lie before it"""
    t, at = stated(sheet, 3), 16 * number
    if number >= t or len(sheet) < 16 * t + size_of(sheet): return refused(31, 4)
    return 0, word(sheet, at), word(sheet, at + 4), kept_bits(word(sheet, at + 8)), word(sheet, at + 12)

def node(sheet, number):
    """likewise the nodes, where they and the links lie before the trailer"""
    n, t = stated(sheet, 2), stated(sheet, 3)
    at = 16 * t + 12 * number
    if number >= n or len(sheet) < 16 * t + 12 * n + size_of(sheet): return refused(31, 3)
    return 0, word(sheet, at), word(sheet, at + 4), kept_bits(word(sheet, at + 8))

# of each call the judge, what it takes, what it tells, and the numbers that a run must have seen it answer
CALLS = {
    'yeldmur_readings': (counted, 'result n states links', 'count', (0, 7, 30)),
    'yeldmur_reading': (reading, 'sheet n result states links k room', 'count cost end', (0, 1, 14, 2, 3, 4, 5, 6, 7, 21, 30, 31)),
    'yeldmur_distance': (distance, 'result values node', 'reached cost', (0, 30, 31)),
    'yeldmur_distance_in': (distance_in, 'result values node unit', 'reached cost', (0, 14, 30, 31)),
    'yeldmur_sheet_counts': (sheet_counts, 'sheet', 'nodes links finals start', (0, 1, 14, 2, 3, 4)),
    'yeldmur_unit': (unit_told, 'sheet', 'unit', (0, 1, 14, 2, 3, 4)),
    'yeldmur_link': (link, 'sheet number', 'ilabel olabel weight_bits next', (0, 31)),
    'yeldmur_node': (node, 'sheet number', 'links mark weight_bits', (0, 31)),
}

# ---- the library

# a result of a list, with the counts that the call told
Listed = namedtuple('Listed', 'bytes n states links')
# a reading: its cost, its links by number, and where it ends
Reading = namedtuple('Reading', 'cost run end')

BYTES, AREA_OF = [ctypes.c_char_p, ctypes.c_size_t], [ctypes.c_void_p, ctypes.c_size_t]
TAKEN = {'sheet': BYTES, 'result': BYTES, 'room': AREA_OF}

class Library:
    def __init__(self, path):
        self.loaded = ctypes.CDLL(path)
        self.area = ctypes.create_string_buffer(len(AREA))
        self.lent = ctypes.addressof(self.area) + 4 * GUARD
        self.calls = {name: self.call(name, takes.split(), tells.split()) for name, (_, takes, tells, _) in CALLS.items()}

    def call(self, name, takes, tells):
        """a function of the library, and the values behind its pointers"""
        values = [ctypes.c_int32() if what == 'cost' else ctypes.c_uint32() for what in tells]
        function = self.loaded[name]
        function.argtypes = [kind for what in takes for kind in TAKEN.get(what, [ctypes.c_uint32])] + [ctypes.POINTER(type(v)) for v in values]
        function.restype = ctypes.c_uint32
        return function, values, takes[-1] == 'room'

    def answer(self, name, args):
        """the number, the values behind the pointers, and the run's area with what stands around it"""
        function, values, has_room = self.calls[name]
        for value, old in zip(values, OLD): value.value = old
        passed = [x for arg in args for x in ((arg, len(arg)) if type(arg) is bytes else (arg,))]
        if not has_room: return function(*passed, *values), *(value.value for value in values)
        *passed, room = passed
        size = 4 * (room + 2 * GUARD)
        ctypes.memmove(self.area, AREA, size)
        number = function(*passed, self.lent, room, *values)
        return number, *(value.value for value in values), ctypes.string_at(self.area, size)

    def areas(self, sheet, n):
        """a work area and a result area, as the library says"""
        slots, size = ctypes.c_uint64(), ctypes.c_uint64()
        assert self.loaded.yeldmur_areas(sheet, ctypes.c_size_t(len(sheet)), n, ctypes.byref(slots), ctypes.byref(size)) == 0
        words = 8 * slots.value
        return (ctypes.c_uint32 * (words + 1))(), ctypes.c_size_t(words), ctypes.create_string_buffer(size.value + 1), ctypes.c_size_t(size.value)

    def list_of(self, sheet, n):
        areas, told = self.areas(sheet, n), [ctypes.c_uint32() for _ in range(3)]
        assert self.loaded.yeldmur_shortest_path(sheet, ctypes.c_size_t(len(sheet)), n, *areas, *map(ctypes.byref, told)) == 0
        states, links, _ = (value.value for value in told)
        return Listed(areas[2].raw[:20 * links + 12 * states + size_of(sheet)], n, states, links)

    def readings_of(self, sheet, n):
        """the readings of a list, made and read back by the library's own calls"""
        r = self.list_of(sheet, n)
        number, count = self.answer('yeldmur_readings', tuple(r))
        told = [self.answer('yeldmur_reading', (sheet, n, *r[:1], *r[2:], k, NODES)) for k in range(count)]
        assert number == 0 and not any(refused for refused, *_ in told)
        return [Reading(cost, struct.unpack_from(f'<{size}I', area, 4 * GUARD), end) for _, size, cost, end, area in told]

    def distances_of(self, sheet):
        areas, values = self.areas(sheet, 1), ctypes.c_uint32()
        assert self.loaded.yeldmur_shortest_distance(sheet, ctypes.c_size_t(len(sheet)), *areas, ctypes.byref(values)) == 0
        return areas[2].raw[:8 * values.value], values.value

# ---- machines

def drawn(rng, nodes, count, chained):
    """a sheet of so many nodes and links or a few more, of sixty-fourths: ties or none, parallel links, any finals, often unreached nodes, sometimes no
    start, a third with barred links or ends; chained, it has long readings"""
    scale, reach, marked = rng.choice((0, 1, 64, UNITS)), rng.choice((1, 2, 3, nodes + 1)), rng.choice((.1, .4, .9))
    def weight(): return rng.randint(-scale, scale) / 64
    def label(_): return rng.choice((0, 1, rng.getrandbits(32))), rng.choice((0, 2, NONE))
    ways = [(v, weight(), v + 1) for v in range(nodes - 1)] if chained else []
    for _ in range(count if nodes > 1 else 0):
        source = rng.randrange(nodes - 1)
        target = rng.randint(source + 1, min(nodes - 1, source + reach))
        ways += [(source, weight(), target) for _ in range(rng.choice((1, 1, 1, 2)))]
    finals = {v: weight() for v in range(nodes) if rng.random() < marked or v == nodes - 1 and rng.random() < .8}
    start = NONE if nodes == 0 or rng.random() < .05 else 0 if rng.random() < .7 else rng.randrange(nodes)
    b = climbing(nodes, ways, start, finals, label)
    return some_barred(rng, b) if rng.random() < .33 else b

def small(rng):
    nodes = rng.choice((0, 1, 2, 3, 4, 4, 5, 6, 8, 10))
    return in_form(drawn(rng, nodes, rng.randrange(3 * nodes + 1), rng.random() < .2), rng.choice(FORMS))

def big(rng):
    nodes = rng.randrange(100, 600)
    return in_form(drawn(rng, nodes, rng.randrange(3 * nodes), rng.random() < .7), rng.choice(FORMS))

DEEP = climbing(NODES, [(v, -LARGEST, v + 1) for v in range(NODES - 1)], 0, {NODES - 1: -LARGEST})
WIDE = climbing(2, [(0, 1 / 64, 1)] * LINKS, 0)
# one node too many, and one link: they are sheets, but are not searched
LARGE = climbing(NODES + 1, [(0, 1, NODES)], 0), climbing(2, [(0, 1, 1)] * (LINKS + 1), 0)
TIES = climbing(4, [(v, 0, v + 1) for v in (0, 0, 1, 1, 2, 2)], 0)
# every reading is barred
SHUT = climbing(3, [(0, 1, 1), (0, INF, 2), (1, INF, 2)], 0, {0: INF, 2: 0})

# with n = 1 the words behind the trailer begin with 64 or 256, as a unit may be
LINES = [climbing(n + 2, [(v, 1, v + 1) for v in range(n + 1)], 0) for n in (64, 256)]

# ---- damage: each gives sheets and results to judge, of a sheet and the result of its list

def near(rng, old, bound):
    """a word near one that may stand there"""
    edges = old + 1, old - 1, old + 2, 0, 1, 2, bound - 1, bound, bound + 1, NONE
    return rng.choice((*edges, rng.randrange(bound + 2), rng.randrange(bound + 2), old ^ 1 << rng.randrange(32))) & NONE

def some_bytes(rng, most): return rng.randbytes(rng.randint(1, most))

def appended(rng, sheet, r, _):
    for _ in range(3): yield sheet, r._replace(bytes=r.bytes + some_bytes(rng, 40))

def cut(rng, sheet, r, _):
    for k in range(1, 25): yield sheet, r._replace(bytes=r.bytes[:-k])

def counts_changed(rng, sheet, r, _):
    for states, links in (-1, 0), (1, 0), (0, -1), (0, 1), (5, -3), (-5, 3), (1, -1), (-1, 1):
        longer = r.bytes + rng.choice((b'', some_bytes(rng, 80)))
        yield sheet, r._replace(bytes=longer, states=max(0, r.states + states), links=max(0, r.links + links))
    for value in 0, 1, 2 ** 28, 2 ** 30, 2 ** 31, NONE:
        yield sheet, r._replace(states=value)
        yield sheet, r._replace(links=value)
        yield sheet, r._replace(states=value, links=value)

def n_changed(rng, sheet, r, _):
    for n in {abs(r.n - 1), r.n + 1, 0, 1, 2, 3, 63, 64, 65, 256 + r.n, 2 ** 31, NONE}: yield sheet, r._replace(n=n)

def byte_changed(rng, sheet, r, _):
    """every byte of a short result, some of a long one"""
    places = range(len(r.bytes)) if len(r.bytes) <= 250 else rng.sample(range(len(r.bytes)), 40)
    for at in places:
        old = r.bytes[at]
        for value in {old ^ 1, old - 1 & 255, rng.choice((0, 255)), rng.randrange(256)} - {old}:
            yield sheet, r._replace(bytes=r.bytes[:at] + bytes([value]) + r.bytes[at + 1:])

def word_places(r, sheet):
    """the words that are looked at, with the bound of what may stand there: next states, numbers, the start's link count, the start"""
    behind = 4 * r.links + 3 * r.states
    words = behind + size_of(sheet) // 4
    places = [(4 * l + 3, r.states) for l in range(r.links)] + [(words + l, stated(sheet, 3)) for l in range(r.links)]
    return places + ([(4 * r.links, r.n)] if r.states else []) + [(behind + 4, r.states)]

def words_changed(rng, sheet, r, _):
    places = word_places(r, sheet)
    for _ in range(40):
        b = bytearray(r.bytes)
        for _ in range(rng.choice((1, 1, 2, 3, 5))):
            at, bound = rng.choice(places)
            struct.pack_into('<I', b, 4 * at, near(rng, word(b, 4 * at), bound))
        yield sheet, r._replace(bytes=bytes(b))

def words_swapped(rng, sheet, r, _):
    """two words of one kind change places, or the number of one link becomes another: often still a way, and at times a reading"""
    places = [at for at, _ in word_places(r, sheet)]
    for _ in range(20 if r.links > 1 else 0):
        kind = rng.choice((places[:r.links], places[r.links:2 * r.links]))
        (a, b), w = rng.sample(kind, 2), r.bytes
        w, first = with_word(w, a, word(w, 4 * b)), word(w, 4 * a)
        yield sheet, r._replace(bytes=with_word(w, b, first) if rng.random() < .7 else w)

def foreign(rng, sheet, r, kept):
    """another sheet's results with this sheet, and this one's with another"""
    for sheet_too, other in rng.sample(kept, min(len(kept), 8)):
        yield sheet, other
        yield sheet_too, r

def sheet_changed(rng, sheet, r, _):
    """the result of a sheet whose weights, marks, start, ways or trailer have changed since, at times to barred ones"""
    (links, nodes, start), unit, size = fields(sheet), unit_of(sheet), size_of(sheet)
    for form in 64, 256, None: yield with_form(sheet, form), r
    for _ in range(12 if nodes else 0):
        ls, vs, s = [list(l) for l in links], [list(v) for v in nodes], start
        v = rng.randrange(len(vs))
        what = rng.randrange(4 if ls else 2)
        if what == 0: vs[v][1:] = rng.choice(((0, 0), (1, BARRED), (1, f(rng.randint(-UNITS, UNITS) / unit))))
        elif what == 1: s = rng.choice((v, NONE))
        elif what == 2: rng.choice(ls)[2] = rng.choice((BARRED, f(rng.randint(-UNITS, UNITS) / unit)))
        else: rng.choice(ls)[3] = v
        ws = [w for record in ls + vs for w in record]
        yield with_word(struct.pack(f'<{len(ws)}I', *ws) + sheet[len(sheet) - size:], len(ws) + 4, s), r

OVER = LARGEST + 1 / 64
OFF_GRID = (0x80000000, BARRED, 0xFF800000, 0x7FC00000, 0x7F800001, 0xFFFFFFFF, 1, 0x80000001, f(.3), f(1 / 128), f(OVER), f(-OVER), f(1 / 256), f(1 / 512),
            f((UNITS + 1) / 256))

def broken_words(rng, sheet):
    """the places and values of words with which a sheet is refused, most of them"""
    n, t = stated(sheet, 2), stated(sheet, 3)
    trailer = 4 * t + 3 * n
    places = [(trailer + i, near(rng, word(sheet, 4 * (trailer + i)), n)) for i in range(size_of(sheet) // 4)]
    if n:
        v = 4 * t + 3 * rng.randrange(n)
        places += [(v, near(rng, word(sheet, 4 * v), t)), (v + 1, rng.choice((0, 1, 2, NONE))), (v + 2, rng.choice(OFF_GRID))]
    if t:
        l = 4 * rng.randrange(t)
        places += [(l + 2, rng.choice(OFF_GRID)), (l + 3, near(rng, word(sheet, 4 * l + 12), n)), (l + 3, 0)]
    return places

def sheet_broken(rng, sheet, r, _):
    yield sheet[:-1], r
    yield sheet + b'\0', r
    yield sheet[:-4], r
    yield sheet + struct.pack('<I', rng.choice((64, 256, 0, NONE))), r
    for unit in 128, 0, rng.getrandbits(9), NONE: yield with_form(sheet, unit), r
    yield sheet[:rng.randrange(len(sheet))], r
    for _ in range(12):
        b = sheet
        for at, value in rng.sample(broken_words(rng, sheet), rng.choice((1, 1, 2))): b = with_word(b, at, value)
        yield b, r._replace(n=rng.choice((r.n, r.n, 65)))
    at = rng.randrange(len(sheet))
    yield sheet[:at] + rng.randbytes(1) + sheet[at + 1:], r
    yield rng.choice(LARGE), r

def invented(rng, sheet, r, _):
    """small words that no call has made a result of"""
    for _ in range(25):
        states, links = rng.randrange(8), rng.randrange(10)
        words = [rng.choice((0, 1, 2, rng.randrange(8), rng.randrange(links + 1), NONE)) for _ in range(5 * links + 3 * states + size_of(sheet) // 4)]
        yield sheet, Listed(struct.pack(f'<{len(words)}I', *words), r.n, states, links)

# the words that are looked at are damaged more often
DAMAGES = (appended, cut, counts_changed, n_changed, byte_changed, foreign, sheet_changed, sheet_broken, invented) + 3 * (words_changed, words_swapped)

# ---- and of distances: bytes and how many values they are said to be

def distances_cut(rng, b, values):
    for k in range(1, 21): yield b[:-k], values
    yield b + some_bytes(rng, 20), values

def values_changed(rng, b, values):
    for v in {max(0, values - 1), values + 1, 0, 1, 2 ** 29, 2 ** 31, NONE}:
        yield b, v
        yield b + some_bytes(rng, 20), v

def distance_bits(rng):
    """weight bits at the edges of what a distance is"""
    unit, k = rng.choice((64, 256)), rng.randint(-SUMS, SUMS)
    most = f(SUMS / unit)
    edges = most, most + 1, most - 1, most | 1 << 31, most + 1 | 1 << 31, most + (1 << 23)
    return rng.choice((*OFF_GRID, *edges, 0, f(k / unit), f(k / unit), f(k / unit / 2), f(k / unit) ^ 1 << rng.randrange(32), rng.getrandbits(32)))

def distances_changed(rng, b, values):
    for _ in range(30 if values else 0):
        v = 2 * rng.randrange(values)
        mark = rng.choice((1, 1, 1, 0, 2, NONE, 256, word(b, 4 * v)))
        yield with_word(with_word(b, v, mark), v + 1, distance_bits(rng)), values

def distance_byte_changed(rng, b, values):
    for at in range(len(b)) if len(b) <= 100 else rng.sample(range(len(b)), 40):
        for value in {b[at] ^ 1, 0, 255, rng.randrange(256)} - {b[at]}: yield b[:at] + bytes([value]) + b[at + 1:], values

DISTANCE_DAMAGES = distances_cut, values_changed, distances_changed, distances_changed, distance_byte_changed

# ---- judging

def named(damage): return damage.__name__.replace('_', ' ')

class Judge:
    def __init__(self, library, seed):
        self.library, self.rng = library, random.Random(seed)
        self.calls, self.kinds, self.machines, self.kept = Counter(), Counter(), 0, []

    def compare(self, name, *args):
        due = CALLS[name][0](*args)
        if self.library.answer(name, args) != due: raise Difference(name, args)
        self.calls[name, due[0]] += 1
        return due

    def result(self, kind, sheet, r, every=False):
        """a result read back: all readings and one past the last, or some; in areas that are longer, exact, one short and empty"""
        self.kinds[kind] += 1
        number, count = self.compare('yeldmur_readings', *r)
        count = 0 if number else count
        far = self.rng.choice((count + 1, r.links, 2 ** 31, NONE))
        ks = range(count + 1) if every else {0, max(0, count - 1), count, self.rng.randrange(count + 1), far}
        return [self.reading(sheet, r, k, every) for k in ks]

    def reading(self, sheet, r, k, every):
        def told(room): return self.compare('yeldmur_reading', sheet, r.n, r.bytes, r.states, r.links, k, room)
        number, size, *rest, area = told(NODES)
        rooms = (0,) if number else (size, max(0, size - 1), 0, size + 7)
        for room in rooms if every else (self.rng.choice(rooms),): told(room)
        return number, (*rest, list(struct.unpack_from(f'<{0 if number else size}I', area, 4 * GUARD)))

    def values(self, kind, b, values):
        self.kinds[kind] += 1
        most = max(values, len(b) // 8)
        nodes = range(values + 1) if values < 20 else {0, values - 1, values, self.rng.randrange(most), self.rng.randrange(most)}
        for v in {*nodes, NONE}:
            self.compare('yeldmur_distance', b, values, v)
            self.compare('yeldmur_distance_in', b, values, v, self.rng.choice((*(64, 256) * 5, 128, 0, 320, NONE)))

    def sheet(self, b):
        """the counts, links and nodes of any bytes"""
        self.kinds['fields of a sheet'] += 1
        self.compare('yeldmur_sheet_counts', b)
        self.compare('yeldmur_unit', b)
        for name, count in ('yeldmur_link', stated(b, 3)), ('yeldmur_node', stated(b, 2)):
            for number in {*range(min(count, 12)), count - 1 & NONE, count, count + 1 & NONE, 2 ** 28, NONE, self.rng.randrange(count + 1)}:
                self.compare(name, b, number)

    def whole_list(self, sheet, n):
        """the list of a sheet, as it is read back, is that of the search; of n = 1 its cost is the least"""
        r = self.library.list_of(sheet, n)
        *told, past = self.result('an answer itself', sheet, r, every=True)
        links, leaves, nodes, start, unit = searched(sheet)[1]
        if len(nodes) > 50 or n == 0: return r
        ways = [(v, weight_units(bits, unit), to) for v, (_, _, bits, to) in zip(leaves, links)]
        search = Search(ways, [weight_units(bits, unit) if mark else None for _, mark, bits in nodes], None if start == NONE else start, n)
        if n == 1: costs, runs = [search.total] * (search.total < INF), [run for _, (_, _, run) in told]
        else: costs, runs, _, _ = search.run() if search.total < INF else ([], [], 0, [])
        if past[0] != 31 or len(told) != len(costs) or [(k, cost, run) for k, (cost, _, run) in told] != [(0, *due) for due in zip(costs, runs)]:
            raise Difference('the list', (sheet, n))
        return r

    def whole_distances(self, sheet):
        b, values = self.library.distances_of(sheet)
        self.values('distances themselves', b, values)
        unit = unit_of(sheet)
        told = [self.compare('yeldmur_distance_in', b, values, v, unit) for v in range(values)]
        if told != [(0, 0, 0) if d is None else (0, 1, unit * d) for d in distances(sheet)]: raise Difference('the distances', (sheet,))
        return b, values

    def machine(self, sheet):
        """a sheet's fields, its lists and its distances, whole and with some of the damages each"""
        self.machines += 1
        self.sheet(sheet)
        for n in 0, 1, 2, 3, 5, 64:
            r = self.whole_list(sheet, n)
            for damage in self.rng.sample(DAMAGES, 2): self.damaged(damage, sheet, r)
            self.keep(sheet, r)
        whole = self.whole_distances(sheet)
        for damage in self.rng.sample(DISTANCE_DAMAGES, 2):
            for b, values in damage(self.rng, *whole): self.values(named(damage), b, values)

    def damaged(self, damage, sheet, r):
        for b, changed in damage(self.rng, sheet, r, self.kept):
            self.result(named(damage), b, changed)
            if damage is sheet_broken: self.sheet(b)
            if damage is invented: self.sheet(changed.bytes)

    def keep(self, sheet, r):
        """some results for other sheets; and the list's machine is a sheet itself, but is none with the words behind it"""
        if len(r.bytes) < 4000: self.kept.append((sheet, r))
        if len(self.kept) > 60: self.kept.pop(self.rng.randrange(60))
        if self.rng.random() < .2:
            for b in r.bytes[:len(r.bytes) - 4 * r.links], r.bytes: self.sheet(b)

    def run(self, cases):
        for b in A, A256, EMPTY, longer(EMPTY, 256), TIES, in_form(E, 64), SHUT, FINE: self.machine(b)
        for b in LARGE: self.sheet(b)
        for b in CHAIN, DEEP, WIDE, in_form(CHAIN, 256), in_form(DEEP, 64), in_form(WIDE, 256), *(in_form(b, form) for b in LINES for form in (None, 64, 256)):
            for n in 1, 2: self.result('an answer itself', b, self.library.list_of(b, n), every=True)
            self.whole_distances(b)
        while self.kinds.total() < cases: self.machine(big(self.rng) if self.machines % 16 == 15 else small(self.rng))

# ---- what is printed

def shorter(arg):
    """simpler values in place of one"""
    if type(arg) is int: yield from (v for v in (0, 1, arg // 2, arg - 1) if 0 <= v < arg)
    else:
        for k in 64, 16, 12, 4, 1: yield arg[:-k]
        for at in range(0, len(arg) - 3, 4):
            if any(arg[at:at + 4]): yield with_word(arg, at // 4, 0)

def differs(library, name, args):
    return library.answer(name, args) != CALLS[name][0](*args)

def reduced(library, name, args, seconds=5):
    """a call that differs, and of which no part can be made simpler alone"""
    end = time.monotonic() + seconds
    def step():
        for i, arg in enumerate(args):
            for simple in shorter(arg):
                changed = *args[:i], simple, *args[i + 1:]
                if simple != arg and differs(library, name, changed): return changed
    while time.monotonic() < end and (changed := step()): args = changed
    return args

def shown(value):
    return value.hex() or '-' if type(value) is bytes else value

def print_difference(asked, name, args):
    library = asked.library
    if name not in CALLS:
        print(f'{name}: what is read back is not what search_oracle.py and sheets.py give, for', *map(shown, args))
        return
    judge, takes, tells, _ = CALLS[name]
    args = reduced(library, name, args)
    print(f'{name} differs:')
    for what, arg in zip(takes.split(), args): print(f'  {what}: {shown(arg)}')
    for who, told in ('due', judge(*args)), ('told', library.answer(name, args)):
        print(f'  {who}:', *(f'{what} {shown(value)}' for what, value in zip(['number', *tells.split(), 'area'], told)))

def print_figures(judge):
    print(f'{judge.kinds.total():,} cases of {judge.machines:,} machines')
    for kind, count in sorted(judge.kinds.items()): print(f'  {kind}: {count:,}')
    print(f'{judge.calls.total():,} calls, by what they answered')
    for name in CALLS: print(f'  {name}:', ', '.join(f'{number}: {count:,}' for (who, number), count in sorted(judge.calls.items()) if who == name))

def main():
    conduct('Holds the calls that read back to a judge of their own.', 'cases', 5000, lambda library, seed: Judge(Library(library), seed), print_difference, print_figures,
            unseen=lambda judge: [f'{number} of {name}' for name, (*_, numbers) in CALLS.items() for number in numbers if not judge.calls[name, number]])

if __name__ == '__main__': main()
