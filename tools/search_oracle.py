#!/usr/bin/env python3
"""The search for the n cheapest readings, from the text of the requirements, apart from the library. Run, it prints costs, readings, entries
taken, and the links of the trimmed list machine as (source, next, weight, input link or None), of the small machines whose values
crates/search/proofs/Bench.antt states, and of one with barred links. Weights are in units, INF for what is barred.

    python3 tools/search_oracle.py
"""
INF = float('inf')

class Search:
    def __init__(self, links, finals, start, n, as_rust=False):
        """as_rust: an entry finished at infinity is listed and counts towards n, as in the Rust"""
        self.finals, self.start, self.n, self.as_rust = finals, start, n, as_rust
        nodes = range(len(finals))
        self.distance = [0 if v == start else INF for v in nodes]
        for source, weight, target in links:
            self.distance[target] = min(self.distance[target], self.distance[source] + weight)
        ends = [v for v in nodes if finals[v] is not None]
        self.total = min((self.distance[v] + finals[v] for v in ends), default=INF)
        self.out = [[(None, finals[v], v + 1) for v in ends]]
        self.out += [[(l, w, s + 1) for l, (s, w, t) in enumerate(links) if t == v] for v in nodes]
        # an entry: its node, or None where it is finished, its cost, the entry it came from, the input link, the weight since that entry
        self.entries, self.heap, self.visits = [(0, 0, None, None, 0)], [0], [0] * (len(finals) + 1)
        self.listed, self.taken = [], 0

    def rank(self, i):
        node, cost = self.entries[i][:2]
        if node is None: return cost, 1
        return (self.distance[node - 1] if node else self.total) + cost, 0

    def before(self, a, b): return self.rank(self.heap[a]) < self.rank(self.heap[b])

    def swap(self, a, b): self.heap[a], self.heap[b] = self.heap[b], self.heap[a]

    def put(self, entry):
        self.entries.append(entry)
        self.heap.append(len(self.entries) - 1)
        i = len(self.heap) - 1
        while i and self.before(i, (i - 1) // 2):
            self.swap(i, (i - 1) // 2)
            i = (i - 1) // 2

    def remove(self):
        head, last = self.heap[0], self.heap.pop()
        i = 0
        if self.heap: self.heap[0] = last
        while 2 * i + 1 < len(self.heap):
            c = 2 * i + 1
            if c + 1 < len(self.heap) and self.before(c + 1, c): c += 1
            if self.before(i, c): break
            self.swap(i, c)
            i = c
        return head

    def step(self):
        x = self.remove()
        self.taken += 1
        node, cost = self.entries[x][:2]
        if node is None:
            if cost < INF or self.as_rust: self.listed.append(x)
            return
        self.visits[node] += 1
        if self.visits[node] > self.n: return
        for link, weight, target in self.out[node]: self.put((target, cost + weight, x, link, weight))
        if self.start is not None and node == self.start + 1: self.put((None, cost, x, None, 0))

    def reading(self, i):
        links = []
        while i is not None:
            if self.entries[i][3] is not None: links.append(self.entries[i][3])
            i = self.entries[i][2]
        return links

    def run(self):
        while self.heap and len(self.listed) < self.n: self.step()
        return [self.entries[i][1] for i in self.listed], [self.reading(i) for i in self.listed], self.taken, self.trimmed()

    def trimmed(self):
        """entry i is state i + 1, and 0 the start; states that the start does not lead to, or that do not lead to state 1, go"""
        links = [(0, i + 1, 0, None) for i in self.listed]
        links += [(i + 1, e[2] + 1, e[4], e[3]) for i, e in enumerate(self.entries) if i]
        def closed(first, step):
            steps, seen, more = {}, {first}, [first]
            for a, b in map(step, links): steps.setdefault(a, []).append(b)
            while more:
                more = [b for a in more for b in steps.get(a, []) if b not in seen]
                seen.update(more)
            return seen
        stay = sorted(closed(0, lambda k: (k[0], k[1])) & closed(1, lambda k: (k[1], k[0])))
        number = {q: i for i, q in enumerate(stay)}
        return [(number[s], number[t], w, l) for s, t, w, l in links if s in number and t in number]

A = [(0, 64, 1), (0, 32, 2), (1, 16, 3), (1, 0, 2), (2, 48, 3)], [None, None, None, 32], 0
B = [(0, 0, 1), (0, 0, 1), (1, 0, 2), (1, 0, 2), (1, 0, 2)], [None, None, 0], 0
C = [(0, 7, 1), (1, 4, 2)], [0, 4, 0, 0], 1
D = [(0, 0, 1), (0, 0, 2)], [0, 0, 0], 0
E = [(0, 5, 1), (0, INF, 1), (1, INF, 2), (2, 0, 3)], [None, 1, INF, 0], 0
if __name__ == '__main__':
    for name, machine, n in (('A', A, 2), ('A', A, 3), ('A', A, 4), ('A', A, 64), ('B', B, 2), ('C', C, 3), ('D', D, 2), ('E', E, 2), ('E', E, 3), ('E', E, 64)):
        print(name, n, *Search(*machine, n).run())
