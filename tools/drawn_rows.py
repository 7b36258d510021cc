"""Texts and sheets for the converter, drawn and damaged: what the stored cases of row_cases.py and the comparing run in oracle/ share. Every
draw takes its random numbers from `r`. It shares nothing with the library.
"""
import struct
from fractions import Fraction
from rows import weight_text
from sheets import BARRED, LARGEST, NONE, UNITS, f, sheet, unit, with_word

# the largest weight, and a unit more and less
MOST, MORE, LESS = (weight_text(Fraction(k, 64)).encode() for k in (UNITS, UNITS + 1, UNITS - 1))

# fields that are neither a number nor a weight
BAD = [b'+1', b'1.', b'.5', b'-.5', b'1e3', b'0.1234567', b'1.0000000', b'-', b'--1', b'-+1', b'1-', b'1.2.3', b'1..2', b'0x10', b'x', b'1x', b'1,5', b'1_0',
       b'infinity', b'inf', b'nan', b'\r', b'1\r', b'\0', b'1\0', b'\x80', b'1\xff', b'\xc2\xa0', b'\xd9\xa1', b'\x0b', b'\x0c1', b'\x1f', b'/', b':', b'0-1']
# fields that are no number, most of them weights
NO_NODE = [b'-1', b'-0', b'1.5', b'1.0', b'4294967296', b'9999999999', b'10000000000', b'18446744073709551616', b'18446744073709551617', b'9' * 40]
# weights off the grid, and on it
OFF = [MOST + b'.000001', b'-' + MOST + b'.000001', MORE, b'-' + MORE, b'%d' % (LARGEST + 1), b'%d' % (-LARGEST - 1), b'0.3', b'0.000001', b'-0.000001', b'0.015624', b'0.015626', b'0.007812',
       b'0.500001', b'0.1', b'1000', b'4294967296', b'33554432', b'281474976710656', b'67108864.015625', b'18446744073709551616',
       b'18446744073709551617.5', b'9' * 20, b'9' * 40, b'-' + b'7' * 40 + b'.25']
ON = [MOST, b'-' + MOST, MOST + b'.0', MOST + b'.000000', b'-' + MOST + b'.00000', LESS, b'-' + LESS, b'65', b'-100', b'99.984375', b'0.015625', b'-0.015625', b'0', b'-0', b'-0.0', b'0.000000',
      b'-0.000000', b'00', b'007', b'00.250', b'-000.5', b'0' * 40 + b'1.25', b'1.5', b'1.50', b'1.500000', b'0.75', b'10', b'9', b'0.984375', b'2.140625']
# the weight of what is barred, and what is not its spelling
INFINITY = b'Infinity'
NO_INFINITY = [b'infinity', b'INFINITY', b'Inf', b'inf', b'INF', b'+Infinity', b'-Infinity', b'-inf', b'Infinit', b'Infinity0', b'Infinity.', b'Infinity.0', b'0Infinity', b'InfinityInfinity',
               b'Infinite', b'nfinity', b'I', b'InfinitY', b'iNFINITY', b'Infinity\0', b'Infinity\r', b'NaN', b'1e39']
# nodes without a sheet, and nodes far up
FAR = [b'4294967295', b'4294967295', b'4294967294', b'200000', b'70000', b'65536', b'16384', b'16383']
BYTES = b' \t\n0159-.+e\r\0\x80\xff'

def units(r): return r.choice([0, 0, 64, 32, -64, 1, -1, UNITS, -UNITS, UNITS - 1, r.randint(-UNITS, UNITS), r.randint(-640, 640)])

def bars(r, share):
    """whether one in so large a share is barred; without a share nothing is drawn"""
    return share > 0 and r.random() < share

def bits(r, barred, form=None): return BARRED if bars(r, barred) else f(units(r) / unit(form))

def label(r, most=NONE): return r.choice([0, 1, 2, 7, r.randint(0, 99), r.randint(0, most), most])

def spelled(r, k):
    """one of the spellings of k sixty-fourths"""
    text = weight_text(Fraction(abs(k), 64))
    if r.random() < .2:
        point, places = '.' not in text, len(text.partition('.')[2])
        text += '.' * point + '0' * r.randint(int(point), 6 - places)
    if r.random() < .1: text = '0' * r.randint(1, 30) + text
    return '-' * (k < 0 or k == 0 and r.random() < .2) + text

def blanks(r, least): return r.choice(['\t', ' ', '\t', ' ', '  ', ' \t', '\t\t ']) if least or r.random() < .1 else ''

def joined(r, parts, plain):
    if plain: return '\t'.join(parts) + '\n'
    return blanks(r, 0) + ''.join(p + blanks(r, 1) for p in parts[:-1]) + parts[-1] + blanks(r, 0) + '\n'

def digits(r, n, plain): return '0' * (0 if plain or r.random() < .95 else r.randint(1, 20)) + str(n)

def drawn_text(r, nodes=9, links=14, finals=5, labels=NONE, plain=False, barred=0):
    """a text that can be read: rows in any order, at most one final row a node; plain: with one tab between and in shortest forms; barred: the share
    of weights that are infinite"""
    n = r.randint(1, nodes)
    rows = [[digits(r, x, plain) for x in (r.randrange(n), r.randrange(n), label(r, labels), label(r, labels))] for _ in range(r.randint(0, links))]
    rows += [[digits(r, v, plain)] for v in r.sample(range(n), r.randint(0 if rows else 1, min(n, finals)))]
    if r.random() < .8: r.shuffle(rows)
    for row in rows:
        if bars(r, barred): row.append(INFINITY.decode()); continue
        k = units(r)
        if plain: row += [weight_text(Fraction(k, 64))] if k else []
        elif k or r.random() < .4: row.append(spelled(r, k))
    return ''.join(joined(r, row, plain) for row in rows).encode()

def with_field(r, text, news, which=None):
    """another field somewhere: anywhere, at a node's place, or at a weight's, also where there was none"""
    rows = [row.split() for row in text.split(b'\n')[:-1]]
    row = r.choice(rows)
    if which == 'weight': row[-1:] = ([] if len(row) in (2, 5) else row[-1:]) + [r.choice(news)]
    else: row[r.randrange((2 if len(row) > 2 else 1) if which == 'node' else len(row))] = r.choice(news)
    return b''.join(r.choice([b'\t', b' ']).join(row) + b'\n' for row in rows)

def damaged_text(r, text, barred=0):
    """a text with something changed, most often for the worse; barred: the share of texts whose infinite weights are misspelled or misplaced"""
    if bars(r, barred): return with_field(r, text, *r.choice([(NO_INFINITY, 'weight'), (NO_INFINITY, 'weight'), ([INFINITY], 'weight'), ([INFINITY],)]))
    at, rows = r.randrange(len(text)), text.split(b'\n')[:-1]
    row, byte = r.choice(rows), bytes([r.choice(BYTES) if r.random() < .7 else r.randrange(256)])
    kind = r.randrange(18)
    if kind < 6: return with_field(r, text, *((BAD,), (NO_NODE,), (OFF, 'weight'), (OFF,), (FAR, 'node'), (ON, 'weight'))[kind])
    if kind < 12: return (text[:-1], text[:at], text[:at] + text[at + 1:], text[:at] + byte + text[at:], text[:at] + byte + text[at + 1:], b'')[kind - 6]
    if kind < 14: return (text + b'\n', text.replace(b'\n', b'\r\n'))[kind - 12]
    more = r.choice([row, (row.split() or [b'0'])[0], row + b' 1', row + b'\t0\t0', b' \t', b''])
    rows.insert(r.randint(0, len(rows)), more)
    return b'\n'.join(rows) + b'\n'

def drawn_sheet(r, nodes=9, links=14, barred=0, longer=0):
    """a sheet that can be read; some have no rows; barred: the share of weights that are infinite; longer: that of sheets of the longer trailer"""
    form = r.choice((64, 256)) if bars(r, longer) else None
    n = r.randint(0 if r.random() < .1 else 1, nodes)
    ways = sorted(r.randrange(n) for _ in range(r.randint(0, links))) if n else []
    ends = [r.random() < .3 for _ in range(n)]
    if n and r.random() < .7: ends[n - 1] = True
    own = [v for v in range(n) if ends[v] or v in ways]
    start = NONE if not n or r.random() < .1 else r.choice(own) if own and r.random() < .9 else r.randrange(n)
    return sheet([(label(r), label(r), bits(r, barred, form), r.randrange(n)) for _ in ways],
                 [(ways.count(v), int(ends[v]), bits(r, barred, form) if ends[v] else 0) for v in range(n)], start, form)

def damaged_sheet(r, b):
    """a sheet with one or two words changed, or its length"""
    if r.random() < .1: return r.choice([b[:-1], b[1:], b + b'\0', b'\0' + b, b[:r.randrange(len(b))], b''])
    for _ in range(r.randint(1, 2)):
        i = r.randrange(len(b) // 4)
        w = struct.unpack_from('<I', b, 4 * i)[0]
        news = [0, 1, 2, w + 1 & NONE, w - 1 & NONE, w ^ 0x80000000, 0x80000000, 0x7f800000, 0x7fc00000, f(LARGEST + 1 / 64), f(1 / 128), NONE, r.randrange(2 ** 32)]
        b = with_word(b, i, r.choice(news))
    return b
