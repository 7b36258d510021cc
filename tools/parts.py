"""The two parts of a machine that narrows to a node, each under its trailer, from the text of the requirements: what the scripts beside this one share. It shares nothing
with the library.
"""
import struct
from functools import lru_cache
from sheets import NONE, fields, form_of, input_number, sheet, sources

def narrows(b, c):
    """whether an accepted sheet narrows to node c"""
    links, nodes, start = fields(b)
    if c >= len(nodes) or start == NONE or start > c: return False
    if any(mark for v, (_, mark, _) in enumerate(nodes) if v < c): return False
    return not any(v < c < nxt for v, (_, _, _, nxt) in zip(sources(nodes), links))

def first_part(b, c):
    """nodes up to c, with c final at weight 0 and its links removed; and the numbers of the links"""
    links, nodes, start = fields(b)
    numbers = [l for l, v in enumerate(sources(nodes)) if v < c]
    return sheet([links[l] for l in numbers], [node for v, node in enumerate(nodes) if v < c] + [(0, 1, 0)], start, form_of(b)), numbers

def second_part(b, c):
    """nodes from c, counted from 0, starting there; and the numbers of the links"""
    links, nodes, _ = fields(b)
    numbers = [l for l, v in enumerate(sources(nodes)) if v >= c]
    moved = [(ilabel, olabel, bits, nxt - c) for ilabel, olabel, bits, nxt in (links[l] for l in numbers)]
    return sheet(moved, [node for v, node in enumerate(nodes) if v >= c], 0, form_of(b)), numbers

@lru_cache(16)
def made(b, c):
    """the number, 21 apart, how many links each part has, and the bytes of the answer"""
    k = input_number(b) or (0 if narrows(b, c) else 13)
    if k: return k, (), b''
    parts = first_part(b, c), second_part(b, c)
    return 0, tuple(len(numbers) for _, numbers in parts), b''.join(part + struct.pack(f'<{len(own)}I', *own) for part, own in parts)

def outcome(b, c, room):
    """the number, the two counts and the bytes of the answer"""
    k, counts, answer = made(b, c)
    return (21, (), b'') if room < len(answer) else (k, counts, answer)

def least_sums(n, low, high):
    """the n least sums of one cost of each list, or all of them where there are fewer"""
    return sorted(x + y for x in low for y in high)[:n]
