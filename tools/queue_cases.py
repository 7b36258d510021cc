#!/usr/bin/env python3
"""Writes the cases that crates/replay_queues replays: a line a case, a queue's record, the calls made on it one after the other with the
answer that each must give, the record that must be left, and what the case is. The validity of a record comes from the text of refusal 22
in the requirements, what a call makes of it from the Rust's state_order_queue.rs; nothing is shared with the library.

A record is words in hexadecimal, little-endian: front, 0 or 1 for back none or some, back, and each node whose flag is set. A call is four
words: which one (CALLS), its node, the kind of its answer (KINDS), and the answer's value.

    python3 tools/queue_cases.py > crates/replay_queues/stdin
"""
import random, struct
from sheets import NODES as LIMIT

LAST = LIMIT - 1
CALLS = ['enqueue', 'dequeue', 'head', 'update', 'is_empty', 'clear', 'is_valid']
KINDS = ['done', 'node', 'none', 'refused', 'test']
WITH_NODE = ('enqueue', 'update')

class Queue:
    """front, back or None, and the nodes whose flag is set"""
    def __init__(self, front=0, back=None, flags=()): self.front, self.back, self.flags = front, back, set(flags)

    def copy(self): return Queue(self.front, self.back, self.flags)

    def refused(self):
        """refusal 22 of the record alone, condition by condition"""
        if self.front > LIMIT: return True
        if self.back is not None and self.back > LAST: return True
        empty = self.back is None or self.front > self.back
        for v in self.flags:
            if empty or not self.front <= v <= self.back: return True
        if not empty and (self.front not in self.flags or self.back not in self.flags): return True
        return self.back is None and self.front != 0

    # ---- the Rust's calls, on a record that is not refused
    def rust_is_empty(self):
        if self.back is not None: return self.front > self.back
        return True

    def rust_enqueue(self, state):
        if self.back is None or self.front > self.back: self.front = state; self.back = state
        elif state > self.back: self.back = state
        elif state < self.front: self.front = state
        self.flags.add(state)

    def rust_dequeue(self):
        if self.rust_is_empty(): return None
        old_head = self.front
        self.flags.discard(self.front)
        if self.back is not None:
            while self.front <= self.back and self.front not in self.flags: self.front += 1
        return old_head

    def rust_clear(self):
        if self.back is not None:
            for i in range(self.front, self.back + 1): self.flags.discard(i)
        self.front = 0
        self.back = None

    def call(self, name, node):
        """the kind and the value of the answer"""
        if name == 'is_valid': return 'test', int(not self.refused())
        if self.refused() or (name == 'enqueue' and node > LAST): return 'refused', 22
        if name == 'enqueue': self.rust_enqueue(node); return 'done', 0
        if name == 'update': return 'done', 0
        if name == 'clear': self.rust_clear(); return 'done', 0
        if name == 'is_empty': return 'test', int(self.rust_is_empty())
        if name == 'head': return 'node', self.front
        v = self.rust_dequeue()
        return ('none', 0) if v is None else ('node', v)

def word(n): return struct.pack('<I', n).hex()

def flag_words(nodes):
    """rows of four and more, each node one above the one before, are written as a repetition"""
    out, i = '', 0
    while i < len(nodes):
        n = 1
        while i + n < len(nodes) and nodes[i + n] == nodes[i] + n: n += 1
        if n < 4: n = 1
        out += word(nodes[i])
        if n > 1: out += f'+04{4 * (n - 1):06x}'
        i += n
    return out

def record(q): return word(q.front) + word(0 if q.back is None else 1) + word(q.back or 0) + flag_words(sorted(q.flags))

lines = []
def case(what, q, calls):
    """calls: names, or a name and a node"""
    before, done = record(q), ''
    q = q.copy()
    for c in calls:
        name, node = c if isinstance(c, tuple) else (c, 0)
        kind, value = q.call(name, node)
        done += word(CALLS.index(name)) + word(node) + word(KINDS.index(kind)) + word(value)
    lines.append(f'{before} {done} {record(q)} # {what}')

def each(what, q, node=7):
    """every call on one record"""
    for c in CALLS: case(f'{what}: {c}', q, [(c, node) if c in WITH_NODE else c])

def prefixes(what, q, calls):
    """a sequence, call by call, so that each record on the way is compared"""
    for n in range(1, len(calls) + 1): case(f'{what}, {n} calls', q, calls[:n])

ALL = range(LIMIT)

# ---- records that break no condition
VALID = [
    ('a new queue', Queue()),
    ('one node', Queue(5, 5, {5})),
    ('node 0 alone', Queue(0, 0, {0})),
    ('the highest node alone', Queue(LAST, LAST, {LAST})),
    ('two nodes', Queue(3, 9, {3, 9})),
    ('a row of nodes', Queue(3, 9, range(3, 10))),
    ('the first and the last node', Queue(0, LAST, {0, LAST})),
    ('every node', Queue(0, LAST, ALL)),
    ('every second node of a row', Queue(LAST - 195, LAST - 1, range(LAST - 195, LAST, 2))),
    ('emptied, front one above back', Queue(10, 9)),
    ('emptied at 0', Queue(1, 0)),
    ('emptied at the top', Queue(LIMIT, LAST)),
    ('front far above back and no flags', Queue(100, 3)),
    (f'front {LIMIT:,} far above back and no flags', Queue(LIMIT, 0)),
]
for what, q in VALID:
    assert not q.refused(), what
    each(what, q)

# ---- each condition of 22
INVALID = [
    (f'front {LIMIT + 1:,}, back none', Queue(LIMIT + 1)),
    (f'front {LIMIT + 1:,} above back', Queue(LIMIT + 1, 9)),
    (f'front {LIMIT + 1:,} above back {LAST:,}', Queue(LIMIT + 1, LAST)),
    ('front 65,536', Queue(65536, 0)),
    ('front the highest number', Queue(0xffffffff, LAST)),
    (f'back {LIMIT:,}', Queue(3, LIMIT, {3})),
    (f'back {LIMIT:,}, front at it', Queue(LIMIT, LIMIT)),
    (f'back {LIMIT:,}, every flag set', Queue(0, LIMIT, ALL)),
    (f'back {2 * LIMIT - 1:,}, front at a flag', Queue(LAST, 2 * LIMIT - 1, {LAST})),
    ('back the highest number', Queue(0, 0xffffffff, {0})),
    ('a flag below front', Queue(5, 9, {4, 5, 9})),
    ('flag 0 below front', Queue(5, 9, {0, 5, 9})),
    ('a flag above back', Queue(5, 9, {5, 9, 10})),
    (f'flag {LAST:,} above back', Queue(5, 9, {5, 9, LAST})),
    ('a flag in a queue without back', Queue(0, None, {0})),
    (f'flag {LAST:,} in a queue without back', Queue(0, None, {LAST})),
    ('every flag in a queue without back', Queue(0, None, ALL)),
    ('a flag at back of an emptied queue', Queue(10, 9, {9})),
    ('a flag at front of an emptied queue', Queue(10, 9, {10})),
    ('a flag far from an emptied queue', Queue(10, 9, {300})),
    (f'flag {LAST:,} of a queue emptied at the top', Queue(LIMIT, LAST, {LAST})),
    ('a clear flag at front', Queue(3, 9, {5, 9})),
    ('a clear flag at front 0', Queue(0, LAST, set(ALL) - {0})),
    ('a clear flag at back', Queue(3, 9, {3, 5})),
    (f'a clear flag at back {LAST:,}', Queue(0, LAST, set(ALL) - {LAST})),
    ('clear flags at front and back', Queue(3, 9, {5})),
    ('front at back and its flag clear', Queue(5, 5)),
    ('no flags from front to back', Queue(3, 9)),
    ('back none, front 1', Queue(1)),
    (f'back none, front {LIMIT:,}', Queue(LIMIT)),
]
for what, q in INVALID:
    assert q.refused(), what
    each(what, q)

# ---- nodes too high to be put in; update takes any
for what, q in VALID[:4] + VALID[9:]:
    for node in (LAST, LIMIT, LIMIT + 1, 65536, 0xffffffff):
        case(f'{what}: enqueue {node}', q, [('enqueue', node)])
        case(f'{what}: update {node}', q, [('update', node)])

# ---- nodes put in below, between, above, and again
for node in (0, 2, 3, 4, 8, 9, 10, LAST): case(f'two nodes: enqueue {node}', Queue(3, 9, {3, 9}), [('enqueue', node)])

# ---- sequences
prefixes('in order and out', Queue(), [('enqueue', v) for v in (3, 4, 7)] + ['dequeue', 'head', 'dequeue', 'is_empty', 'dequeue', 'is_empty', 'dequeue', 'head', 'is_valid'])
prefixes('backwards and out', Queue(), [('enqueue', v) for v in (9, 5, 1)] + ['head', 'dequeue', 'dequeue', 'dequeue', 'dequeue', 'head'])
prefixes('emptied at the top', Queue(), [('enqueue', LAST), 'head', 'dequeue', 'head', 'is_empty', 'is_valid', 'dequeue', ('enqueue', LIMIT), ('enqueue', 0), 'head'])
prefixes('cleared and filled again', Queue(), [('enqueue', 8), ('enqueue', 2), ('update', 5), 'clear', 'head', 'is_empty', ('enqueue', 6), 'head', 'dequeue', 'clear', 'clear'])
prefixes('a refusal changes nothing', Queue(), [('enqueue', 8), ('enqueue', 5000), ('enqueue', 2), ('update', 5000), 'head', 'dequeue', 'dequeue'])
prefixes('every node out of a full queue', Queue(0, LAST, ALL), ['dequeue'] * 12)
prefixes('a damaged record', Queue(3, 9, {5, 9}), CALLS[1:3] + ['clear', 'is_empty', ('enqueue', 3), 'is_valid'])

rng = random.Random(22)
for n in range(40):
    top = rng.choice([4, 12, 60, LIMIT])
    q = Queue()
    calls = []
    for _ in range(rng.randint(4, 14)):
        name = rng.choice(['enqueue'] * 5 + ['dequeue'] * 4 + ['head', 'update', 'is_empty', 'clear', 'is_valid'])
        calls.append((name, rng.randrange(top) if rng.randrange(12) else rng.choice([LAST, LIMIT, 70000])) if name in WITH_NODE else name)
    prefixes(f'drawn sequence {n}', q, calls)

# ---- drawn records, whole and damaged
for n in range(150):
    front, back = sorted((rng.randrange(40), rng.randrange(40)))
    flags = {v for v in range(front, back + 1) if rng.randrange(2)} | {front, back}
    q = Queue(front, back, flags)
    damage = rng.randrange(8)
    if damage == 1: q.flags ^= {rng.choice([front, back])}
    if damage == 2: q.flags |= {rng.randrange(60)}
    if damage == 3: q.front += rng.choice([1, 5000])
    if damage == 4: q.back = None
    if damage == 5: q.back += rng.choice([1, LIMIT])
    if damage == 6: q.flags = set()
    if damage == 7: q.front, q.back = q.back, q.front
    name = rng.choice(CALLS)
    case(f'drawn record {n}: {name}', q, [(name, rng.randrange(50)) if name in WITH_NODE else name])

print('\n'.join(lines))
