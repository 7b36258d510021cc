"""Text rows and sheets, both ways, as document 02's requests (a), (e) and (h) word them, with exact fractions: what the scripts beside this one and
the comparing run in oracle/ share. It shares nothing with the library.
"""
import re, sys
from fractions import Fraction
from math import inf
from sheets import BARRED, NONE, UNITS, f, fields, form_of, read_number, real, sheet, sources

# a weight may have any number of digits before its point
sys.set_int_max_str_digits(0)

def number(field):
    """digits within 32 bits, or None"""
    if not re.fullmatch(rb'[0-9]+', field): return None
    n = int(field)
    return n if n < 2 ** 32 else None

def weight(field):
    """the exact weight, inf for the one spelling of what is barred, or None"""
    if field == b'Infinity': return inf
    if not re.fullmatch(rb'-?[0-9]+(\.[0-9]{1,6})?', field): return None
    return Fraction(field.decode())

def row_of(line):
    """('link', source, next, input label, output label, weight) or ('final', node, weight), or None where it can't be read"""
    parts = [p for p in re.split(rb'[ \t]+', line) if p]
    if len(parts) not in (1, 2, 4, 5): return None
    numbers = [number(p) for p in (parts[:4] if len(parts) > 2 else parts[:1])]
    last = weight(parts[-1]) if len(parts) in (2, 5) else Fraction(0)
    if None in numbers or last is None: return None
    return ('link' if len(parts) > 2 else 'final', *numbers, last)

def rows_of(text):
    """the rows of a text, or None: no rows, one that can't be read, or a second final row for a node"""
    if not text.endswith(b'\n'): return None
    rows = [row_of(line) for line in text[:-1].split(b'\n')]
    if None in rows: return None
    finals = [row[1] for row in rows if row[0] == 'final']
    return rows if len(set(finals)) == len(finals) else None

def off_grid(w): return w != inf and ((w * 64).denominator != 1 or abs(w * 64) > UNITS)

def sheet_size(text):
    """what the call for the length answers: the refusal, 8, 1, 4, or 0, and the length"""
    rows = rows_of(text)
    if rows is None: return 8, 0
    links = [row for row in rows if row[0] == 'link']
    n = 1 + max(v for row in rows for v in (row[1:3] if row[0] == 'link' else row[1:2]))
    if n >= 2 ** 32 or 16 * len(links) >= 2 ** 32: return 1, 0
    if any(off_grid(row[-1]) for row in rows): return 4, 0
    return 0, 16 * len(links) + 12 * n + 20

def to_sheet(text, room):
    """the refusal, or 0, and the sheet"""
    k, size = sheet_size(text)
    if k or size > room: return k or 21, b''
    rows = rows_of(text)
    n = 1 + max(v for row in rows for v in (row[1:3] if row[0] == 'link' else row[1:2]))
    links, finals = {}, {}
    for row in rows:
        if row[0] == 'link': links.setdefault(row[1], []).append((row[3], row[4], f(float(row[5])), row[2]))
        else: finals[row[1]] = f(float(row[2]))
    nodes = [(len(links.get(v, ())), int(v in finals), finals.get(v, 0)) for v in range(n)]
    return 0, sheet([link for v in sorted(links) for link in links[v]], nodes, rows[0][1])

def weight_text(w):
    if w == inf: return 'Infinity'
    whole, part = divmod(abs(w) * 10 ** 6, 10 ** 6)
    return ('-' if w < 0 else '') + str(whole) + (f'.{int(part):06}'.rstrip('0') if part else '')

def written_row(numbers, bits):
    w = inf if bits == BARRED else Fraction(real(bits))
    return '\t'.join([*map(str, numbers)] + ([weight_text(w)] if w else [])) + '\n'

def has_rows(b):
    links, nodes, start = fields(b)
    if form_of(b) is not None or start == NONE: return False
    last = len(nodes) - 1
    return any(nodes[start][:2]) and (any(nodes[last][:2]) or any(nxt == last for *_, nxt in links))

def text_of(b):
    """the rows of a sheet that has rows"""
    links, nodes, start = fields(b)
    parts = [''] * len(nodes)
    for v, (i, o, bits, nxt) in zip(sources(nodes), links): parts[v] += written_row((v, nxt, i, o), bits)
    for v, (_, mark, bits) in enumerate(nodes):
        if mark: parts[v] += written_row((v,), bits)
    return ''.join([parts[start]] + parts[:start] + parts[start + 1:]).encode()

def rows_size(b):
    """what the call for the text's length answers: the refusal, 1, 14, 2 to 4, 9, or 0, and the length"""
    k = read_number(b) or (0 if has_rows(b) else 9)
    return (k, 0) if k else (0, len(text_of(b)))

def to_rows(b, room):
    """the refusal, or 0, and the text"""
    k, size = rows_size(b)
    return (k or 21, b'') if k or size > room else (0, text_of(b))
