"""Sheets as the requirements lay them out, under either trailer, their tests 1, 14 and 2 to 6 and their distances with exact fractions, and how
stored cases write bytes: what the scripts beside this one share. It shares nothing with the library.

A sheet's form is None for the shorter trailer, which means sixty-fourths, or the sixth field of the longer one, its unit.

Stored bytes are in hexadecimal (- for none); *bbcccccc repeats the last bb bytes over cccccc bytes, and +bbcccccc too, with the last word one
higher each time.
"""
import math, os, struct
from fractions import Fraction

NONE = 0xFFFFFFFF

# the limits: the most nodes and links of a machine, and the most units of a weight either way; the largest weight in sixty-fourths
NODES, LINKS, UNITS = 2048, 16384, 8192
LARGEST = UNITS / 64
# the bytes of the two trailers
SHORT, LONG = 20, 24
# the forms of sheets, as often as they are drawn
FORMS = None, None, 64, 256
# the weight bits of what is barred, positive infinity
BARRED = 0x7F800000

def f(x): return struct.unpack('<I', struct.pack('<f', x))[0]

def real(bits): return struct.unpack('<f', struct.pack('<I', bits))[0]

def on_grid(bits, unit=64):
    x = real(bits)
    if not math.isfinite(x) or bits == 0x80000000: return False
    k = Fraction(x) * unit
    return k.denominator == 1 and abs(k) <= UNITS

def fits(bits, unit=64):
    """test 4 of a weight"""
    return bits == BARRED or on_grid(bits, unit)

def unit(form): return 64 if form is None else form

def largest(form): return UNITS / unit(form)

def trailer(links, nodes, start, form=None):
    """the fields of the trailer of so many links and nodes"""
    return [0, 16 * links, nodes, links, start] + ([] if form is None else [form])

def sheet(links, nodes, start, form=None):
    ws = [w for l in links for w in l] + [w for v in nodes for w in v] + trailer(len(links), len(nodes), start, form)
    return struct.pack('<%dI' % len(ws), *ws)

def with_word(b, i, w): return b[:4 * i] + struct.pack('<I', w) + b[4 * i + 4:]

def longer(b, form):
    """a sheet of the shorter trailer with the longer one"""
    return b + struct.pack('<I', form)

def with_form(b, form):
    """a sheet with another trailer"""
    short = b if form_of(b) is None else b[:-4]
    return short if form is None else longer(short, form)

def in_form(b, form):
    """the machine of a sheet under another trailer, each weight as many units as it was"""
    links, nodes, start = fields(b)
    def moved(bits): return bits if bits == BARRED else f(real(bits) * unit_of(b) / unit(form))
    return sheet([(i, o, moved(bits), nxt) for i, o, bits, nxt in links], [(count, mark, moved(bits)) for count, mark, bits in nodes], start, form)

def laid_out(b, size):
    """whether offsets, counts and length agree under a trailer of so many bytes"""
    if len(b) < size: return False
    link_offset, node_offset, n, t, _ = struct.unpack_from('<5I', b, len(b) - size)
    return link_offset == 0 and node_offset == 16 * t and len(b) == 16 * t + 12 * n + size

def trailer_size(b):
    """the bytes of its trailer, or 0 where it is laid out under neither; no byte string is laid out under both"""
    sizes = [size for size in (SHORT, LONG) if laid_out(b, size)]
    assert len(sizes) < 2, 'laid out under both trailers'
    return sizes[0] if sizes else 0

def form_of(b): return struct.unpack('<I', b[-4:])[0] if trailer_size(b) == LONG else None

def unit_of(b): return unit(form_of(b))

def fields(b):
    _, _, n, t, start = struct.unpack_from('<5I', b, len(b) - (trailer_size(b) or SHORT))
    links = [struct.unpack_from('<4I', b, 16 * l) for l in range(t)]
    nodes = [struct.unpack_from('<3I', b, 16 * t + 12 * v) for v in range(n)]
    return links, nodes, start

def read_number(b):
    """the refusal of reading, 1, 14 or 2 to 4, or 0"""
    if not trailer_size(b): return 1
    links, nodes, start = fields(b)
    for count, mark, bits in nodes:
        if mark not in (0, 1) or (mark == 0 and bits != 0): return 1
    if sum(count for count, _, _ in nodes) != len(links): return 1
    n, unit = len(nodes), unit_of(b)
    if unit not in (64, 256): return 14
    if not (start < n or start == NONE): return 2
    if any(nxt >= n for _, _, _, nxt in links): return 3
    if any(not fits(bits, unit) for _, _, bits, _ in links): return 4
    if any(mark == 1 and not fits(bits, unit) for _, mark, bits in nodes): return 4
    return 0

def sources(nodes): return [v for v, (count, _, _) in enumerate(nodes) for _ in range(count)]

def input_number(b):
    """the refusal from the input, 1, 14 or 2 to 6, or 0"""
    k = read_number(b)
    if k: return k
    links, nodes, _ = fields(b)
    if len(nodes) > NODES or len(links) > LINKS: return 5
    if any(link[3] <= v for v, link in zip(sources(nodes), links)): return 6
    return 0

def distances(b):
    """a value per node up to the highest that is reached or that a link, barred or not, leads to from a reached one; None for an unreached one"""
    links, nodes, start = fields(b)
    least, highest = [None] * len(nodes), start
    if start == NONE: return []
    least[start] = Fraction(0)
    for v, (_, _, bits, nxt) in zip(sources(nodes), links):
        if least[v] is None: continue
        highest = max(highest, nxt)
        if bits == BARRED: continue
        to = least[v] + Fraction(real(bits))
        if least[nxt] is None or to < least[nxt]: least[nxt] = to
    return least[:1 + highest]

def climbing(n, ways, start, finals=None, label=lambda i: (i + 1, i + 1), form=None):
    """a sheet of n nodes from (source, weight, next), with the final weights of some nodes, or none of its nodes final but the last"""
    ways, finals = sorted(ways, key=lambda w: w[0]), {n - 1: 0} if finals is None else finals
    links = [(*label(i), f(weight), nxt) for i, (_, weight, nxt) in enumerate(ways)]
    return sheet(links, [(sum(w[0] == v for w in ways), int(v in finals), f(finals.get(v, 0))) for v in range(n)], start, form)

def some_barred(r, b):
    """a sheet with some of its links, of its final weights or of both barred; r draws which"""
    links, nodes, start = fields(b)
    kinds, share = r.choice(('links', 'finals', 'links and finals')), r.choice((.15, .4, .8))
    def barred(kind, bits): return BARRED if kind in kinds and r.random() < share else bits
    return sheet([(i, o, barred('links', bits), nxt) for i, o, bits, nxt in links],
                 [(count, mark, barred('finals', bits) if mark else bits) for count, mark, bits in nodes], start, form_of(b))

def raised(block):
    w = struct.unpack('<H', block[-4:-2])[0]
    return block[:-4] + struct.pack('<H', w + 1 & 0xFFFF) + block[-2:]

def repeats(b, at, back, change):
    """how many parts of so many bytes follow, each made by change from the one before"""
    k = 0
    while at >= back and at + back <= len(b) and b[at:at + back] == change(b[at - back:at]): at += back; k += 1
    return k

def written(b, least=16):
    """bytes as stored, with the repeats of at least so many parts"""
    out, at = [], 0
    while at < len(b):
        sign, back, k = max((('*+'[c], back, repeats(b, at, back, change)) for back in (4, 12, 16) for c, change in enumerate((bytes, raised))),
                            key=lambda x: x[1] * x[2])
        if k < least: out.append(b[at:at + 1].hex()); at += 1
        else: out.append(f'{sign}{back:02x}{back * k:06x}'); at += back * k
    return ''.join(out) or '-'

def read(text):
    """what `written` wrote"""
    b, at = b'', 0
    while at < len(text) and text != '-':
        if text[at] not in '*+': b += bytes.fromhex(text[at:at + 2]); at += 2; continue
        back, more = int(text[at + 1:at + 3], 16), int(text[at + 3:at + 9], 16)
        parts = [b[-back:]]
        for _ in range(more // back): parts.append(raised(parts[-1]) if text[at] == '+' else parts[-1])
        b += b''.join(parts[1:]); at += 9
    return b

def sample():
    """what the Rust answered to the sheets of oracle/sample.txt: the sheet, n, the distances, the nodes and links of the list's machine,
    the entries taken, and the result"""
    def unhex(text): return b'' if text == '-' else bytes.fromhex(text)
    with open(os.path.join(os.path.dirname(os.path.abspath(__file__)), '..', 'oracle', 'sample.txt')) as lines:
        for line in lines:
            b, n, values, nodes, links, taken, result = line.split()
            yield unhex(b), int(n), unhex(values), int(nodes), int(links), int(taken), unhex(result)

# Sheet A
A = sheet([(1, 1, f(1), 1), (2, 2, f(.5), 2), (3, 3, f(.25), 3), (5, 5, f(0), 2), (4, 4, f(.75), 3)],
          [(2, 0, 0), (2, 0, 0), (1, 0, 0), (0, 1, f(.5))], 0)
# the word at which its trailer begins
TRAILER = len(A) // 4 - 5
# Sheet A with the longer trailer, in either unit
A64, A256 = longer(A, 64), longer(A, 256)
EMPTY = sheet([], [], NONE)
# with barred links and a barred end: node 3 is led to from node 2 alone, which is not reached
E = sheet([(1, 1, f(5 / 64), 1), (2, 2, BARRED, 1), (3, 3, BARRED, 2), (4, 4, f(0), 3)], [(2, 0, 0), (1, 1, f(1 / 64)), (1, 1, BARRED), (0, 1, f(0))], 0)
# of as many nodes as there may be, each weight the largest
CHAIN = sheet([(1, 1, f(LARGEST), v + 1) for v in range(NODES - 1)], [(1, 0, 0)] * (NODES - 1) + [(0, 1, f(LARGEST))], 0)
# a weight of one unit, and the lowest, in 256ths
FINE = sheet([(1, 1, f(1 / 256), 1)], [(1, 0, 0), (0, 1, f(-UNITS / 256))], 0, 256)
