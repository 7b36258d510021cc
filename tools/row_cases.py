#!/usr/bin/env python3
"""Writes the cases that crates/replay_rows replays: a line a case, with a space between: the call (0: rows to a sheet, 1: a sheet to rows), the
bytes of the result area, the refusal of the call that tells the length (0: none), the length that it tells, the refusal of the call that
converts, the text or sheet, what is written, and what the case is. A length is eight bytes; bytes are as sheets.py writes them. What is
expected comes from rows.py, which follows the text of the requirements and shares nothing with the library.

    python3 tools/row_cases.py > crates/replay_rows/stdin
"""
import random, struct
from drawn_rows import BAD, INFINITY, LESS, MOST, NO_INFINITY, NO_NODE, OFF, ON, damaged_sheet, damaged_text, drawn_sheet, drawn_text
from rows import rows_size, sheet_size, to_rows, to_sheet
from sheets import A, A64, A256, BARRED, E, EMPTY, FINE, LARGEST, NONE, f, longer, read, sheet, with_form, with_word, written

# what the program has areas for
ROOM, GIVEN = 16384, 8192

TO_SHEET, TO_ROWS = (0, sheet_size, to_sheet), (1, rows_size, to_rows)

# Sheet A's rows as they are written
A_ROWS = b'0\t1\t1\t1\t1\n0\t2\t2\t2\t0.5\n1\t3\t3\t3\t0.25\n1\t2\t5\t5\n2\t3\t4\t4\t0.75\n3\t0.5\n'

# E's rows as they are written
E_ROWS = b'0\t1\t1\t1\t0.078125\n0\t1\t2\t2\tInfinity\n1\t2\t3\t3\tInfinity\n1\t0.015625\n2\t3\t4\t4\n2\tInfinity\n3\n'

lines = {}
def case(call, what, data, room=ROOM):
    """stores a case, and gives what the converting call must answer and write"""
    kind, size_of, made_of = call
    k, size = size_of(data)
    refused, out = made_of(data, room)
    assert len(data) <= GIVEN and room <= ROOM and all(read(written(x, 1)) == x for x in (data, out))
    line = f"{kind} {room} {k} {struct.pack('<Q', size).hex()} {refused} {written(data, 1)} {written(out, 1)}"
    lines.setdefault(line, f'{what}, room for {room}')
    return refused, out

def exact(call, what, data):
    """the same with an area just long enough, longer, one byte short, and shorter, and gives what is written"""
    size = call[1](data)[1]
    for room in sorted({size, size + 1, size + 40, max(size - 1, 0), size // 2, 0}): case(call, what, data, room)
    return case(call, what, data, size)[1]

def number(call, what, data, *rooms):
    """the same with areas of some lengths, and gives the one number that all answer"""
    numbers = {case(call, what, data, room)[0] for room in rooms or (ROOM,)}
    assert len(numbers) == 1, what
    return numbers.pop()

def both_ways():
    assert exact(TO_SHEET, "A's rows", A_ROWS) == A and exact(TO_ROWS, 'A', A) == A_ROWS
    b = exact(TO_SHEET, 'blanks of each kind', b' 2  0\t7 7 -1.5\n0\n2 1.000000 \n01 3 1 1 -0\n')
    assert len(b) == 100 and exact(TO_ROWS, 'blanks of each kind', b) == b'2\t0\t7\t7\t-1.5\n2\t1\n0\n1\t3\t1\t1\n'
    b = exact(TO_SHEET, "the grid's ends", b'0 0.015625\n1 -%b\n2 %b\n3 -%b\n' % (LESS, MOST, MOST))
    assert len(b) == 68 and exact(TO_ROWS, "the grid's ends", b) == b'0\t0.015625\n1\t-%b\n2\t%b\n3\t-%b\n' % (LESS, MOST, MOST)
    assert exact(TO_SHEET, 'a node by its number alone', b'00010\n')[-20:] == struct.pack('<5I', 0, 0, 11, 0, 10)
    exact(TO_SHEET, 'links of a node apart', b'1 0 1 1\n0 1 2 2\n1 1 3 3 2\n0 0 4 4\n1 0 5 5\n')
    exact(TO_SHEET, 'a thousand nodes', b'999 3 1 2 -7.25\n3 999 4 5\n')
    exact(TO_SHEET, 'forty links of one node', b''.join(b'0 1 %d %d %d\n' % (i, i * i, i) for i in range(40)) + b'1\n')

REFUSED = {
    'empty': (8, b''), 'no newline at the end': (8, b'0'), 'no newline at the end, a row before': (8, b'0\n1'),
    'no newline at the end, 4 before': (8, b'0 %d\n1' % (LARGEST + 1)), 'a newline alone': (8, b'\n'),
    'blanks alone': (8, b' \t\n'), 'a blank row': (8, b'0\n\n1\n'), 'a blank row at the end': (8, b'0\n\n'), 'blanks at the end': (8, b'0\n '),
    'three fields': (8, b'0 1 2\n'), 'six fields': (8, b'0 1 2 3 4 5\n'), 'seven fields': (8, b'0 1 2 3 4 5 6\n'),
    '8 after 4': (8, b'0 %d\n1 x\n' % (LARGEST + 1)), '8 after 1': (8, b'4294967295\n1 x\n'), '1': (1, b'4294967295 9\n'), '1 with 4': (1, b'4294967295 9.3\n'),
    '1 by a next node': (1, b'0 4294967295 1 1\n'), '4 in the last row': (4, b'0\n1 %b.000001\n' % MOST), '4 in the first row': (4, b'0 0.3\n1 2 3 4 5\n'),
    'final twice': (8, b'0\n0\n'), 'final twice, other weights': (8, b'0 1\n1\n0 2\n'), 'final twice, far up': (8, b'4294967294\n70000\n4294967294\n'),
    'final twice, other digits': (8, b'3\n003 1\n'), 'final twice at 16,384': (8, b'0\n16384\n32768\n16384\n'),
    'final twice at 16,383': (8, b'16383\n0\n16384\n16383\n'), 'final twice at 65,536': (8, b'0\n65536\n131072\n65536\n'),
    'final twice at 65,535': (8, b'65535\n0\n65536\n65535\n'), 'final twice at the top': (8, b'4294967295\n4294967295\n'),
    'final twice, behind one further up': (8, b'90000\n20000\n50000\n20000\n'), 'final once each, 16,384 apart': (21, b'16384\n0\n32768\n49152\n'),
    'final twice and off the grid': (8, b'0 0.3\n0\n'), 'a carriage return': (8, b'0\r\n'), 'a NUL': (8, b'0\0\n'), 'a form feed': (8, b'0\x0c1 1 1\n'),
    'the highest node that has a sheet': (21, b'4294967294\n'), 'the highest by a next node': (21, b'0 4294967294 1 1\n'),
    'final rows far apart': (21, b'70000\n1\n140000 2\n'), 'the largest labels': (21, b'5 5000 4294967295 4294967295\n')}

def texts():
    for what, (k, text) in REFUSED.items(): assert number(TO_SHEET, what, text, ROOM, 0) == k, what
    for at in range(5):
        others = [b'1.0000001'] if at == 4 else NO_NODE if at in (0, 3) else NO_NODE[at::3]
        for bad in (BAD if at in (0, 4) else BAD[at::4]) + others + [b'']:
            parts = [b'0', b'1', b'2', b'3', b'4']
            parts[at] = bad
            assert number(TO_SHEET, f'{bad!r} as field {at} of a link', b'3\n' + b' '.join(parts) + b'\n') == (8 if bad else 0)
    for bad in BAD[::2]:
        assert number(TO_SHEET, f'final weight {bad!r}', b'3\n0\t' + bad + b'\n') == 8 == number(TO_SHEET, f'final node {bad!r}', bad + b'\n')
    for k, weights in ((4, OFF), (0, ON)):
        for w in weights:
            assert number(TO_SHEET, f'link weight {w!r}', b'1 0 1 1 ' + w + b'\n') == k == number(TO_SHEET, f'final weight {w!r}', b'0 ' + w + b'\n')
    for n in (b'0', b'00', b'4294967295', b'000000000004294967295', b'1000000000', b'999999999'):
        assert number(TO_SHEET, f'labels {n!r}', b'0 0 ' + n + b' ' + n + b'\n') == 0

START = len(A) // 4 - 1
NO_ROWS = {
    'no nodes and no start': EMPTY, 'no start': with_word(A, START, NONE), 'a bare start': sheet([], [(0, 0, 0), (0, 1, 0)], 0),
    'a bare last node': sheet([], [(0, 1, 0), (0, 0, 0)], 0), 'one bare node': sheet([], [(0, 0, 0)], 0),
    'a bare start with a link to it': sheet([(1, 1, 0, 0)], [(0, 0, 0), (1, 0, 0)], 0)}
ROWS = {
    'one marked node': sheet([], [(0, 1, 0)], 0), 'a bare last node with a link to it': sheet([(1, 1, 0, 1)], [(1, 0, 0), (0, 0, 0)], 0),
    'a last node with a link': sheet([(1, 1, 0, 0)], [(0, 1, 0), (1, 0, 0)], 0), 'half below zero': sheet([(1, 2, f(-.5), 0)], [(1, 1, f(-.5))], 0),
    'a start above 0': sheet([(1, 2, f(1), 2), (3, 4, f(-1), 0), (5, 6, 0, 1)], [(1, 1, f(.5)), (1, 0, 0), (1, 1, 0)], 2),
    'bare nodes between': sheet([(NONE, 0, f(LARGEST), 5)], [(0, 0, 0)] * 3 + [(1, 0, 0)] + [(0, 0, 0)] * 2, 3),
    'labels and weights of most digits': sheet([(NONE, NONE - 1, f(1 / 64 - LARGEST), 0)] * 2, [(2, 1, f(-10.015625))], 0)}

def sheets():
    for what, b in NO_ROWS.items(): assert number(TO_ROWS, what, b, ROOM, 0) == 9, what
    for what, b in ROWS.items(): assert exact(TO_SHEET, what, exact(TO_ROWS, what, b)) == b, what
    for i in range(len(A) // 4):
        for w in (NONE, 0x80000000): case(TO_ROWS, f'A with word {i} {w:08x}', with_word(A, i, w))
    off = with_word(A, 2, f(LARGEST + 1))
    for k, b in ((1, A[:-1]), (1, b''), (2, with_word(A, START, 4)), (2, with_word(off, START, 4)), (3, with_word(off, 3, 4)), (4, with_word(off, START, NONE))):
        assert number(TO_ROWS, f'{k} before what follows', b, ROOM, 0) == k

BARRED_REFUSED = {
    'barred, then off the grid': (4, b'0 Infinity\n1 0.3\n'), 'off the grid, then barred': (4, b'0 1 1 1 0.3\n1 Infinity\n'),
    'barred, then a row that is none': (8, b'0 Infinity\n1 x\n'), 'barred at a node without a sheet': (1, b'4294967295 Infinity\n'),
    'barred by a link to a node without a sheet': (1, b'0 4294967295 1 1 Infinity\n'), 'final twice, both barred': (8, b'0 Infinity\n0 Infinity\n'),
    'final twice, one barred': (8, b'0\n0 Infinity\n'), 'three fields, one of them Infinity': (8, b'0 1 Infinity\n'),
    'Infinity, then a sixth field': (8, b'0 1 1 1 Infinity 1\n'), 'Infinity alone': (8, b'Infinity\n'), 'Infinity without a newline': (8, b'0 Infinity')}

def barred():
    assert exact(TO_SHEET, "E's rows", E_ROWS) == E and exact(TO_ROWS, 'E', E) == E_ROWS
    b = exact(TO_SHEET, 'a barred link', b'0\t1\t1\t1\tInfinity\n')
    assert b == sheet([(1, 1, BARRED, 1)], [(1, 0, 0), (0, 0, 0)], 0) and exact(TO_ROWS, 'a barred link', b) == b'0\t1\t1\t1\tInfinity\n'
    b = exact(TO_SHEET, 'a barred end', b' 0\t Infinity \n')
    assert b == sheet([], [(0, 1, BARRED)], 0) and exact(TO_ROWS, 'a barred end', b) == b'0\tInfinity\n'
    for what, (k, text) in BARRED_REFUSED.items(): assert number(TO_SHEET, what, text, ROOM, 0) == k, what
    for bad in NO_INFINITY:
        assert number(TO_SHEET, f'link weight {bad!r}', b'0\t1\t1\t1\t' + bad + b'\n') == 8 == number(TO_SHEET, f'final weight {bad!r}', b'3\n0\t' + bad + b'\n')
    for at in range(4): assert number(TO_SHEET, f'Infinity as field {at} of a link', b'\t'.join([b'1'] * at + [INFINITY] + [b'1'] * (4 - at)) + b'\n') == 8
    for w in (0xff800000, 0x7fc00000, 0x7f800001):
        assert number(TO_ROWS, f'E, a barred link {w:08x}', with_word(E, 6, w)) == 4 == number(TO_ROWS, f'E, its barred end {w:08x}', with_word(E, 24, w))
    assert number(TO_ROWS, 'E, infinity where the mark is 0', with_word(E, 18, BARRED)) == 1
    assert number(TO_ROWS, 'E, the next node of a barred link out of range', with_word(E, 7, 4)) == 3
    assert number(TO_ROWS, 'E without a start', with_word(E, len(E) // 4 - 1, NONE)) == 9
    assert number(TO_ROWS, 'a bare last node behind a barred end', sheet([], [(0, 1, BARRED), (0, 0, 0)], 0)) == 9

LONGER_REFUSED = ((9, A64), (9, A256), (9, FINE), (9, longer(EMPTY, 64)), (9, longer(EMPTY, 256)), (9, with_word(A256, START, NONE)), (9, longer(E, 256)), (14, longer(A, 128)),
                  (14, longer(A, 0)), (14, longer(A, NONE)), (14, longer(EMPTY, 128)), (14, with_word(longer(A, 128), START, 4)), (14, with_word(longer(A, 128), 2, 1)),
                  (1, with_word(longer(A, 128), 24, 2)), (1, A256 + bytes(4)), (1, A256[:-1]), (1, A256[1:]), (2, with_word(A256, START, 4)), (3, with_word(A64, 3, 4)),
                  (4, with_form(FINE, 64)), (4, with_form(FINE, None)), (4, with_word(A256, 2, f(LARGEST))), (4, with_word(A64, 2, f(1 / 256))))

def longer_trailers():
    for i, (k, b) in enumerate(LONGER_REFUSED): assert number(TO_ROWS, f'the longer trailer {i}, {k}', b, ROOM, 0) == k, i
    for i in range(len(A256) // 4):
        for w in (NONE, 1): case(TO_ROWS, f'A in 256ths with word {i} {w:08x}', with_word(A256, i, w))
    r = random.Random(3)
    for i in range(60):
        b = drawn_sheet(r, 4, 5, barred=.1, longer=1)
        case(TO_ROWS, f'longer {i}', b if i % 3 else damaged_sheet(r, b))

def drawn(r, count, name, nodes, links, barred):
    for call, draw, damage, what in ((TO_SHEET, drawn_text, damaged_text, 'text'), (TO_ROWS, drawn_sheet, damaged_sheet, 'sheet')):
        for i in range(count):
            data = draw(r, nodes, links, barred=barred)
            if i % 3 == 0: data = damage(r, data)
            size = min(call[1](data)[1], ROOM)
            case(call, f'{name} {what} {i}', data, r.choice([ROOM, size, size, max(size - 1, 0)]))

if __name__ == '__main__':
    both_ways()
    texts()
    sheets()
    drawn(random.Random(1), 90, 'drawn', 9, 14, 0)
    barred()
    drawn(random.Random(2), 20, 'barred', 4, 5, .3)
    longer_trailers()
    for line, what in lines.items(): print(line, '#', what)
