#!/usr/bin/env python3
"""Writes what crates/weights must print: for each of its bit patterns the whole number of sixty-fourths and of 256ths, or that it is off
that grid, and where the table of shifts turns. The patterns are the program's own; the grid is that of documents 01 and 02, with exact fractions, the table
that of document 02.

    python3 tools/weight_cases.py > crates/weights/stdout
"""
import os, re
from sheets import on_grid, real

SOURCE = os.path.join(os.path.dirname(__file__), '..', 'crates', 'weights', 'src', 'main.rt')

patterns = re.search(r'PATTERNS[^=]*=(.*?);', open(SOURCE).read(), re.S).group(1)
for pattern in re.findall(r'0x(\w+),', patterns):
    bits = int(pattern.replace('_', ''), 16)
    told = [str(int(real(bits) * unit)) if on_grid(bits, unit) else 'off the grid' for unit in (64, 256)]
    print(f'{bits:08x}', ', '.join(told))
shifts = [min(max(144 - exponent, 0), 24) for exponent in range(256)]
for exponent, shift in enumerate(shifts):
    if exponent == 0 or shift != shifts[exponent - 1]: print('from exponent', exponent, 'shift', shift)
