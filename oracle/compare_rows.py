#!/usr/bin/env python3
"""Runs the library's conversion between text rows and sheets beside three judges: the converter of tools/rows.py, the Rust's reader of text rows
(target/release/oracle rows), and OpenFst (fstcompile, fstprint).

    python3 compare_rows.py SEED COUNT      COUNT texts and COUNT sheets, a third of them damaged, half with barred weights, a quarter of the sheets
                                            with the longer trailer, which have no rows, and a large text for each thousand
    python3 compare_rows.py rows            texts that this library refuses or reads otherwise: what each of the three says

It links ../target/staticlib/libyeldmur.a, or the one in the folder YELDMUR_LIB_DIR.
"""
import collections, ctypes, os, random, re, subprocess, sys, tempfile
HERE = os.path.dirname(os.path.abspath(__file__))
sys.path.insert(0, os.path.join(HERE, '..', 'tools'))
from drawn_pairs import reformed
from drawn_rows import damaged_sheet, damaged_text, drawn_sheet, drawn_text
from rows import rows_of, rows_size, sheet_size, to_rows, to_sheet
from sheets import BARRED, NONE, fields, sheet

BORDER, SIZE = 64, 0xA5C30F1E5A3CF0E1

class Library:
    """the four exports, each lent areas with a border on both sides"""
    def __init__(self, r):
        folder = os.environ.get('YELDMUR_LIB_DIR', os.path.join(HERE, '..', 'target', 'staticlib'))
        with tempfile.TemporaryDirectory() as made:
            shared = os.path.join(made, 'yeldmur.so')
            whole = ['-Wl,--whole-archive', os.path.join(folder, 'libyeldmur.a'), '-Wl,--no-whole-archive']
            subprocess.run(['cc', '-shared', '-o', shared, *whole, '-lm'], check=True)
            self.calls = ctypes.CDLL(shared)
        self.r, self.marks = r, r.randbytes(4096)

    def lent(self, begin, length):
        """an area's cells with its borders; each holds a mark, and the area begins anywhere"""
        cells = bytearray(self.marks * ((begin + length + BORDER) // len(self.marks) + 1))
        return cells, (ctypes.c_uint8 * len(cells)).from_buffer(cells)

    def call(self, name, given, room, expected, told):
        """what is wrong with the call: expected is the number and the bytes of the result (None: it has no result area), told the size"""
        number, out = expected
        at, place = (BORDER + self.r.randrange(8) for _ in range(2))
        text, text_cells = self.lent(at, len(given))
        text[at:at + len(given)] = given
        result, result_cells = self.lent(place, room)
        before, size = (bytes(text), bytes(result)), ctypes.c_uint64(SIZE)
        area = [] if out is None else [ctypes.byref(result_cells, place), ctypes.c_size_t(room)]
        answer = self.calls[name](ctypes.byref(text_cells, at), ctypes.c_size_t(len(given)), *area, ctypes.byref(size))
        after = before[1][:place] + (out or b'') + before[1][place + len(out or b''):]
        checks = [('number', answer == number), ('size', size.value == (SIZE if number else told)), ('given', text == before[0]),
                  ('result', result == after)]
        return [what for what, right in checks if not right]

class Tally:
    def __init__(self): self.counts, self.numbers, self.differences = collections.Counter(), collections.defaultdict(collections.Counter), 0

    def differs(self, what, given, *more):
        self.differences += 1
        if self.differences <= 20: print('differs:', what, given.hex() if len(given) < 2000 else f'{len(given)} bytes', *more)

    def __str__(self):
        numbers = [f"{call} by number ({', '.join(f'{k}: {n}' for k, n in sorted(count.items()))})" for call, count in self.numbers.items()]
        return ', '.join(numbers + [f'{n} {what}' for what, n in self.counts.items()] + [f'{self.differences} differences'])

TO_SHEET = ('yeldmur_rows_to_sheet', 'yeldmur_rows_sheet_bytes', to_sheet, sheet_size)
TO_ROWS = ('yeldmur_sheet_to_rows', 'yeldmur_sheet_rows_bytes', to_rows, rows_size)

# a longer answer is not made, and its call is refused by 21
LONGEST = 2 ** 23

def compare(library, tally, call, given, r):
    """holds both calls of the library to the converter, with an area just long enough and another; gives what is written, or None"""
    convert, tell, made, size_of = call
    number, size = size_of(given)
    out = b'' if number or size > LONGEST else made(given, size)[1]
    calls = [(tell, 0, (number, None))]
    for room in {min(size, LONGEST), *r.choices([max(size - 1, 0), size + 1, r.randint(0, size), size + r.randint(0, 999), 0])}:
        answer = number or (21 if min(room, LONGEST) < size else 0)
        calls.append((convert, min(room, LONGEST), (answer, b'' if answer else out)))
        tally.numbers[convert][answer] += 1
    for name, room, expected in calls:
        tally.counts['calls'] += 1
        faults = library.call(name, given, room, expected, size)
        if faults: tally.differs(name, given, f'room {room}', faults)
    return out or None

def with_tabs(text): return b''.join(b'\t'.join(row.split()) + b'\n' for row in text[:-1].split(b'\n'))

def without_negative_zero(b):
    links, nodes, start = fields(b)
    plus = lambda w: 0 if w == 0x80000000 else w
    return sheet([(i, o, plus(w), v) for i, o, w, v in links], [(count, mark, plus(w)) for count, mark, w in nodes], start)

def without_barred_ends(b):
    """a final row of weight Infinity makes a node that is not final, in the Rust and in OpenFst"""
    links, nodes, start = fields(b)
    return sheet(links, [(count, 0, 0) if w == BARRED else (count, mark, w) for count, mark, w in nodes], start)

def without_infinite_rows(text): return re.sub(rb'(?m)^[0-9]+\tInfinity\n', b'', text)

def by_rust(texts):
    """the sheets that the Rust reads, each with the text that it leaves unread, or none"""
    lines = ''.join((text.hex() or '-') + '\n' for text in texts)
    program = os.path.join(HERE, 'target', 'release', 'oracle')
    printed = subprocess.run([program, 'rows'], input=lines, capture_output=True, text=True, check=True).stdout
    unhex = lambda x: bytes.fromhex(x.replace('-', ''))
    return [tuple(map(unhex, line.split())) if line != '-' else None for line in printed.splitlines()]

def by_openfst(text):
    """what OpenFst prints of the machine that it compiles, or None"""
    compiled = subprocess.run(['fstcompile', '--keep_state_numbering'], input=text, capture_output=True)
    return None if compiled.returncode else subprocess.run(['fstprint'], input=compiled.stdout, capture_output=True, check=True).stdout

def labels_below(text, limit): return all(row[0] == 'final' or max(row[3:5]) < limit for row in rows_of(text))

def compare_machines(tally, read):
    """the machines of texts that are read, as the library was held to make and write them: by the Rust, and by OpenFst"""
    for (text, b, _), made in zip(read, by_rust(with_tabs(text) for text, *_ in read)):
        tally.counts['machines read by the Rust'] += 1
        if made is None or made[1] != b'\n' or without_negative_zero(made[0]) != without_barred_ends(b): tally.differs('the Rust', text, made)
    for (_, b, back), made in zip(read, by_rust(back for *_, back in read)):
        tally.counts['machines read by the Rust from the rows written'] += 1
        if made != (without_barred_ends(b), b'\n'): tally.differs('the Rust, from the rows written', back, made)
    for text, _, back in read:
        # OpenFst's labels are signed
        if not labels_below(text, 2 ** 31): continue
        tally.counts['machines compiled and printed by OpenFst'] += 1
        # a node without links that is not final has a row of its own there
        printed = without_infinite_rows(by_openfst(text) or b'')
        if printed != without_infinite_rows(back): tally.differs('OpenFst', text, printed)

def share(i):
    """the share of barred weights in draw i: some in every second one"""
    return i % 2 * (.1, .3, .7)[i // 2 % 3]

def drawn(r, i, draw, damage):
    given = draw(r, share(i))
    return damage(r, given) if i % 3 == 0 else given

def any_text(r, barred, *most): return drawn_text(r, *most, labels=r.choice([NONE, 2 ** 31 - 1]), plain=r.random() < .5, barred=barred)

def run(seed, count):
    r = random.Random(seed)
    library, tally, read = Library(r), Tally(), []
    texts = [any_text(r, share(i), 200000, 4000, 4000) for i in range(count // 1000)]
    texts += [drawn(r, i, lambda r, barred: any_text(r, barred, 9, 14, 5), lambda r, text: damaged_text(r, text, share(i))) for i in range(count)]
    for text in texts:
        b = compare(library, tally, TO_SHEET, text, r)
        if b is None: continue
        back = compare(library, tally, TO_ROWS, b, r)
        if compare(library, tally, TO_SHEET, back, r) != b: tally.differs('its rows are of another sheet', b)
        read.append((text, b, back))
    for i in range(count):
        b = drawn(r, i, lambda r, barred: drawn_sheet(r, barred=barred, longer=.25), lambda r, b: r.choice((reformed, damaged_sheet, damaged_sheet))(r, b))
        back = compare(library, tally, TO_ROWS, b, r)
        if back is not None and compare(library, tally, TO_SHEET, back, r) != b: tally.differs('its rows are of another sheet', b)
    compare_machines(tally, read)
    print(f'{len(texts)} texts and {count} sheets, {tally}')
    return tally.differences

TOLD = [b'', b'0', b'0\n\n1\n', b'\n0\n', b'0\n \n1\n', b' 0\n', b'0 1 1 1\n', b'0\t1\t\t1\t1\n', b'0\t1\t2\n', b'0\t1\t1\t1\t1\t1\n', b'0\n0\n',
        b'0\n1\n0\t5\n', b'0\t+1\n', b'0\t1.\n', b'0\t.5\n', b'0\t1e1\n', b'0\t0.1234567\n', b'0\t128.000001\n', b'0\t129\n', b'0\t-0\n', b'0\tnan\n', b'0\tInfinity\n', b'0\tinfinity\n', b'0\tinf\n', b'0\t-Infinity\n',
        b'0\t1\t1\t1\tInfinity\n', b'0\t1\t1\t1\tinfinity\n', b'0\t1\t1\t1\tinf\n', b'0\t1\t1\t1\t-Infinity\n', b'0\r\n', b'0\0\n', b'\xff\n', b'+1\n', b'-1\n', b'0x1\n', b'007\n', b'a\tb\tc\td\n', b'0\t0\t-1\t1\n',
        b'0\t0\t2147483647\t1\n', b'0\t0\t2147483648\t1\n', b'0\t0\t4294967295\t1\n', b'0\t0\t4294967296\t1\n']

def said(made, b):
    if made is None: return 'nothing'
    unread = '' if made[1] in (b'', b'\n') else f', unread {made[1]}'
    return f'{len(made[0])} bytes' + unread + (', the same' if made[0] == b else '')

def tell():
    for text, made in zip(TOLD, by_rust(TOLD)):
        k, b = to_sheet(text, 2 ** 20)
        here = f'refused {k}' if k else f'{len(b)} bytes'
        print(f'{text!s:32} here: {here}; the Rust: {said(made, b)}; OpenFst: {by_openfst(text)}')

if __name__ == '__main__':
    if sys.argv[1:] == ['rows']: tell()
    elif len(sys.argv) == 3: sys.exit(run(int(sys.argv[1]), int(sys.argv[2])) > 0)
    else: sys.exit(__doc__)
