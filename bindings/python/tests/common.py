"""What the tests share: Sheet A by hand, drawn machines, and all readings of a machine, apart from the library."""
import random
import struct
from pathlib import Path

from yeldmur import BARRED, Link, Refusal, Sheet

NONE = 0xFFFFFFFF
PROJECT = Path(__file__).resolve().parent.parent
HEADER = PROJECT.parent.parent / "include" / "yeldmur.h"

A_ROWS = "0 1 1 1 1\n0 2 2 2 0.5\n1 3 3 3 0.25\n1 2 5 5\n2 3 4 4 0.75\n3 0.5\n"

# the fields of Sheet A, laid out by hand: five links, four nodes, the trailer
A = [
    *(1, 1, 0x3F800000, 1),
    *(2, 2, 0x3F000000, 2),
    *(3, 3, 0x3E800000, 3),
    *(5, 5, 0x00000000, 2),
    *(4, 4, 0x3F400000, 3),
    *(2, 0, 0),
    *(2, 0, 0),
    *(1, 0, 0),
    *(0, 1, 0x3F000000),
    *(0, 80, 4, 5, 0),
]


# by the unit that a trailer states, or None for the shorter: its bytes
TRAILERS = {None: 20, 64: 24, 256: 24}


def packed(words):
    return struct.pack(f"<{len(words)}I", *words)


def a_with(place, word):
    """The bytes of Sheet A with one word changed."""
    return packed([*A[:place], word, *A[place + 1 :]])


def sheet_a():
    return Sheet.read(packed(A))


def a_in(unit):
    """The bytes of Sheet A with the longer trailer."""
    return packed([*A, unit])


def refused(call, *arguments):
    """The number with which a call is refused, or 0."""
    try:
        call(*arguments)
    except Refusal as refusal:
        return refusal.number
    return 0


def found(sheet, n, areas):
    """Cost and link numbers of each reading on the list for n."""
    return [(reading.cost, reading.numbers) for reading in areas.list_readings(sheet, n)]


class Machine:
    """Links by rising source, final weights and a start, with weights in the unit or barred. The unit is the one that
    the trailer states, or None for sixty-fourths and the shorter."""

    def __init__(self, links, finals, start, unit=None):
        self.links = sorted(links, key=lambda link: link[0])
        self.finals, self.start, self.unit = finals, start, unit

    @classmethod
    def drawn(cls, r, nodes, links, spread, barred=0):
        """Few different weights make ties, many make none. One in so many is barred, or none. The trailer is drawn,
        too."""

        def weight():
            return BARRED if barred and r.randrange(barred) == 0 else r.randint(-spread, spread)

        made = []
        for _ in range(links):
            source = r.randrange(nodes - 1)
            following = r.randrange(source + 1, nodes)
            made.append((source, r.randrange(3), weight(), following))
        finals = [weight() if r.randrange(3) == 0 else None for _ in range(nodes)]
        return cls(made, finals, r.randrange((nodes + 3) // 4), r.choice(list(TRAILERS)))

    @property
    def count(self):
        """How many of its units are 1."""
        return self.unit or 64

    def in_256ths(self):
        """The same machine in the finer unit. Here nothing is barred."""
        links = [(s, label, 4 * units, following) for s, label, units, following in self.links]
        return Machine(links, [None if units is None else 4 * units for units in self.finals], self.start, 256)

    def sheet(self):
        links = [Link(s, label, label, units / self.count, following) for s, label, units, following in self.links]
        finals = [None if units is None else units / self.count for units in self.finals]
        return Sheet.write(links, finals, self.start, self.unit)

    def runs(self):
        """Every run from the start that is not barred: where it leads, what its links cost, and their numbers."""
        waiting = [(self.start, 0, ())]
        while waiting:
            node, cost, numbers = waiting.pop()
            yield node, cost, numbers
            for number, (source, _, units, following) in enumerate(self.links):
                if source == node and units != BARRED:
                    waiting.append((following, cost + units, (*numbers, number)))

    def readings(self):
        """Cost, link numbers and end of every reading."""
        runs = ((node, cost, numbers, self.finals[node]) for node, cost, numbers in self.runs())
        return [(cost + last, numbers, node) for node, cost, numbers, last in runs if last not in (None, BARRED)]

    def distances(self):
        least = {}
        for node, cost, _ in self.runs():
            least[node] = min(cost, least.get(node, cost))
        led_to = [following for source, _, _, following in self.links if source in least]
        return [least.get(node) for node in range(max([*least, *led_to]) + 1)]

    def cost_and_end(self, numbers):
        """Of a run by its numbers, which must hang together from the start to a final node, with nothing barred."""
        node, cost = self.start, 0
        for number in numbers:
            source, _, units, following = self.links[number]
            assert source == node, f"link {number} does not leave node {node}"
            node, cost = following, cost + units
        assert self.finals[node] is not None, f"node {node} is not final"
        assert cost + self.finals[node] != BARRED, "it is barred"
        return cost + self.finals[node], node


MACHINE_A = Machine(
    [(0, 1, 64, 1), (0, 2, 32, 2), (1, 3, 16, 3), (1, 5, 0, 2), (2, 4, 48, 3)], [None, None, None, 32], 0
)


def seeded(seed):
    return random.Random(seed)
