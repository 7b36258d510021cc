#!/usr/bin/env python3
"""Draws the layout of a sheet and that of a result, as docs/SHEET.md shows them: docs/pictures/sheet.svg and result.svg, with the figures of
Sheet A and of its list for n = 2. Offsets, fields and ways come from sheets.py and search_oracle.py, so that none is written twice.

    python3 tools/draw_layouts.py            # writes both
"""
import sys
from pathlib import Path
sys.dont_write_bytecode = True
import search_oracle
from sheets import A, fields, real

PICTURES = Path(__file__).resolve().parent.parent / 'docs/pictures'
WIDTH, MARGIN = 800, 20
INK, GREY, LINE = '#111111', '#666666', '#333333'
BLUE, GREEN, AMBER, ROSE = '#dcebfa', '#dff2e1', '#fdf0cf', '#f6e0ea'
RANKS = '#0b62b8', '#c2500a'
LINK, NODE, TRAILER, WORD = 16, 12, 20, 4

# ---- parts of a picture

def text(x, y, words, size=13, colour=INK, anchor='middle', weight='normal'):
    return f'<text x="{x:.1f}" y="{y:.1f}" font-size="{size}" fill="{colour}" text-anchor="{anchor}" font-weight="{weight}">{words}</text>'

def box(x, y, width, height, fill):
    return f'<rect x="{x:.1f}" y="{y:.1f}" width="{width:.1f}" height="{height:.1f}" fill="{fill}" stroke="{LINE}"/>'

def path(way, colour=LINE, width=1.2):
    return f'<path d="{way}" fill="none" stroke="{colour}" stroke-width="{width}" marker-end="url(#head{colour[1:]})"/>'

def head(colour):
    return (f'<marker id="head{colour[1:]}" viewBox="0 0 10 10" refX="9" refY="5" markerWidth="9" markerHeight="9" markerUnits="userSpaceOnUse" '
            f'orient="auto"><path d="M0,1 L10,5 L0,9 z" fill="{colour}"/></marker>')

def picture(title, height, parts):
    """a whole file, on a light ground of its own, so that it can be read on a dark page"""
    return '\n'.join([f'<svg xmlns="http://www.w3.org/2000/svg" viewBox="0 0 {WIDTH} {height}" width="{WIDTH}" height="{height}" '
                      'font-family="Helvetica, Arial, sans-serif" role="img">', f'<title>{title}</title>',
                      '<defs>' + ''.join(map(head, (LINE, *RANKS))) + '</defs>',
                      f'<rect width="{WIDTH}" height="{height}" rx="6" fill="#ffffff"/>', *parts, '</svg>', ''])

def band(y, height, groups):
    """Records side by side, as wide as their bytes: of each group how many, the bytes of one, the name of one by its number, and its colour. Gives
    the parts, and where each group begins, in bytes and in the picture."""
    scale = (WIDTH - 2 * MARGIN) / sum(count * size for count, size, _, _ in groups)
    parts, begins, at = [], [], 0
    for count, size, name, fill in groups:
        begins.append((at, MARGIN + scale * at))
        for i in range(count):
            x = MARGIN + scale * (at + i * size)
            parts += [box(x, y, scale * size, height, fill), text(x + scale * size / 2, y + height / 2 + 5, name(i), 12)]
        at += count * size
    return parts, begins + [(at, WIDTH - MARGIN)]

def offsets(y, begins):
    """the offset in bytes under the place where each group begins, and the whole length at the end"""
    ends = ['start'] + ['middle'] * (len(begins) - 2) + ['end']
    return [text(x, y, at, 12, GREY, end) for (at, x), end in zip(begins, ends)]

def record(y, caption, fill, cells):
    """a record field by field: the name and the value of each, and its offset in the record"""
    parts, width = [text(MARGIN, y + 20, caption[0], 13, INK, 'start', 'bold'), text(MARGIN, y + 38, caption[1], 12, GREY, 'start')], 124
    for i, (name, value) in enumerate(cells):
        x = WIDTH - MARGIN - width * (5 - i)
        parts += [box(x, y, width, 44, fill), text(x + width / 2, y + 18, name, 12), text(x + width / 2, y + 36, value, 13),
                  text(x + 2, y + 57, f'+{4 * i}', 11, GREY, 'start')]
    return parts

# ---- the sheet

def weight_field(bits): return f'{bits:08x} = {real(bits):g}'

def sheet_records(links, nodes, start):
    i, o, bits, following = links[1]
    count, mark, final = nodes[3]
    return (record(196, ('a link', 'here link 1'), BLUE,
                   [('input label', i), ('output label', o), ('weight bits', weight_field(bits)), ('next node', following)])
            + record(272, ('a node', 'here node 3'), GREEN,
                     [('link count', count), ('final mark', mark), ('final weight bits', weight_field(final))])
            + record(348, ('the trailer', '20 bytes'), AMBER,
                     [('offset of links', 0), ('offset of nodes', LINK * len(links)), ('node count N', len(nodes)), ('link count T', len(links)),
                      ('start', start)]))

def sheet_picture():
    links, nodes, start = fields(A)
    names = (lambda l: f'link {l}'), (lambda v: f'node {v}'), (lambda _: 'trailer')
    parts, begins = band(112, 42, [(len(links), LINK, names[0], BLUE), (len(nodes), NODE, names[1], GREEN), (1, TRAILER, names[2], AMBER)])
    (_, first), (_, second), (_, trailer), (length, _) = begins
    title = f'A sheet has 16 × T + 12 × N + 20 bytes: Sheet A, of T = {len(links)} links and N = {len(nodes)} nodes, has {length}'
    parts += [text(WIDTH / 2, 30, title, 15, INK, weight='bold'),
              path(f'M{trailer + 75:.1f},112 C{trailer + 40:.1f},40 {first + 160:.1f},40 {first + 6:.1f},110'),
              path(f'M{trailer + 25:.1f},112 C{trailer:.1f},76 {second + 60:.1f},76 {second + 4:.1f},110'),
              text((first + second) / 2, 92, 'offset of links', 12, GREY), text((second + trailer) / 2 + 20, 103, 'offset of nodes', 12, GREY)]
    return picture('The layout of a sheet', 424, parts + offsets(172, begins) + sheet_records(links, nodes, start))

# ---- the result of a list

def followed(links, l):
    """the numbers of the links from link l on, along each state's only link"""
    way = [l]
    while links[way[-1]][1] != 1: way.append(next(k for k, link in enumerate(links) if link[0] == links[way[-1]][1]))
    return way

def places(links, ways):
    """where each state stands: the start and what the ways share in the middle, the rest in a row for each way"""
    rows = 300, 390
    at = {0: (52, sum(rows) / 2)}
    for row, way in zip(rows, ways):
        for step, l in enumerate(way, 1):
            state = links[l][1]
            at[state] = 52 + 139 * step, (at[0][1] if state in at else row)
    return at

def state(number, x, y):
    rings = (23, 19) if number == 1 else (19,)
    return [f'<circle cx="{x}" cy="{y}" r="{r}" fill="#ffffff" stroke="{LINE}"/>' for r in rings] + [text(x, y + 5, number, 14)]

def drawn_link(links, labels, l, ends, colour, below):
    """an arrow between two states, with its number, its label and weight, and its word"""
    (x, y), (to, down) = ends
    length = ((to - x) ** 2 + (down - y) ** 2) ** .5
    gap, last = 20 / length, 1 - (25 if links[l][1] == 1 else 21) / length
    way = f'M{x + gap * (to - x):.1f},{y + gap * (down - y):.1f} L{x + last * (to - x):.1f},{y + last * (down - y):.1f}'
    weight, repeats = links[l][2] / 64, links[l][3]
    slope = abs(down - y) / 6
    middle, side = (x + to) / 2, (y + down) / 2 + (20 + slope if below else -29 - slope)
    word = text(middle, side + 17, 'word none' if repeats is None else f'word {repeats}', 12, GREY if repeats is None else colour,
                weight='normal' if repeats is None else 'bold')
    return [path(way, colour, 2.2), text(middle, side, f'{l}: {labels[repeats]} / {weight:g}', 12), word]

def told(links, rank, way):
    words = [links[l][3] for l in way if links[l][3] is not None]
    units = [links[l][2] for l in way if links[l][2]]
    rest = ', '.join(map(str, way[1:]))
    return (f'reading {rank + 1}: the start’s link {way[0]}, then links {rest}. Words {" and ".join(map(str, words))}. '
            f'Cost {" + ".join(map(str, units))} = {sum(units)} sixty-fourths')

def machine(links, labels):
    ways = [followed(links, l) for l, link in enumerate(links) if link[0] == 0]
    at, parts, drawn = places(links, ways), [], set()
    for rank, way in enumerate(ways):
        for l in way:
            shared = sum(l in other for other in ways) > 1
            if l not in drawn: parts += drawn_link(links, labels, l, (at[links[l][0]], at[links[l][1]]), LINE if shared else RANKS[rank], rank == 1)
            drawn.add(l)
        parts += [text(MARGIN, 478 + 24 * rank, told(links, rank, way), 13, RANKS[rank], 'start')]
    return parts + [part for number, (x, y) in at.items() for part in state(number, x, y)]

def brace(x, end, words):
    return [f'<path d="M{x:.1f},68 V60 H{end:.1f} V68" fill="none" stroke="{GREY}"/>', text((x + end) / 2, 54, words, 12, GREY)]

def result_picture():
    links = search_oracle.Search(*search_oracle.A, 2).run()[3]
    states = 1 + max(link[0] for link in links)
    labels = {None: 0, **{l: link[0] for l, link in enumerate(fields(A)[0])}}
    groups = [(len(links), LINK, str, BLUE), (states, NODE, str, GREEN), (1, TRAILER, lambda _: '', AMBER), (len(links), WORD, lambda _: '', ROSE)]
    parts, begins = band(112, 36, groups)
    sizes = [after - before for (before, _), (after, _) in zip(begins, begins[1:])]
    for name, size, (_, x), (_, end) in zip(('links', 'states', 'trailer', 'words'), sizes, begins, begins[1:]):
        parts += [text((x + end) / 2, 87, name, 13, INK, weight='bold'), text((x + end) / 2, 104, f'{size} bytes', 11, GREY)]
    (size, sheet_end), (length, end) = begins[3:]
    parts += [text(WIDTH / 2, 28, f'A result: a machine as a sheet, then one word per link. Sheet A, n = 2: {length} bytes', 15, weight='bold'),
              *brace(MARGIN, sheet_end - 3, f'the machine as a sheet, {size} bytes'), *brace(sheet_end + 3, end, 'one a link'),
              text(MARGIN, 212, 'The machine. On an arrow: the link’s number, its label / weight, and its word, the input link that it repeats',
                   13, GREY, 'start')]
    return picture('The layout of the result of a list', 520, parts + offsets(166, begins) + machine(links, labels))

def pictures(): return {'sheet.svg': sheet_picture(), 'result.svg': result_picture()}

if __name__ == '__main__':
    for name, drawn in pictures().items(): (PICTURES / name).write_text(drawn)
