"""The sheet of what two sheets both allow: cases by hand, each refusal beside what just passes, and drawn pairs against
the words of the request."""
import ctypes
import unittest

from common import A, NONE, Machine, a_with, packed, refused, seeded, sheet_a

from yeldmur import BARRED, LINK_LIMIT, LIST_LIMIT, NODE_LIMIT, WEIGHT_LIMIT
from yeldmur import Refusal, Sheet, list_readings, raw, two_probes

BYTE = b"\xa5"

# two links of label 7 and one of label 8, in sixty-fourths 1, 2 and 5; and the other sheet with 10, 20 and 30
FIRST = "0 1 7 7 0.015625\n0 1 7 7 0.03125\n0 1 8 8 0.078125\n1 0.046875\n"
SECOND = "0 2 8 8 0.15625\n0 1 7 7 0.3125\n1 2 7 7 0.46875\n1 1.5625\n2 3.125\n"


def weighed(weight, last):
    """A link of this weight to a node with this final weight."""
    return Sheet.write([(0, 7, 7, weight, 1)], [None, last], 0)


def parallel(count):
    return Sheet.write([(0, 7, 7, 0, 1)] * count, [None, 0], 0)


def without_links(nodes):
    return Sheet.write([], [None] * nodes, None)


class ByHand(unittest.TestCase):
    def test_a_with_itself(self):
        both = two_probes(sheet_a(), sheet_a())
        links = [(0, 1, 1, 2, 5), (0, 2, 2, 1, 10), (5, 3, 3, 0.5, 15), (5, 5, 5, 0, 10), (10, 4, 4, 1.5, 15)]
        self.assertEqual(both, Sheet.write(links, [None] * 15 + [1], 0))
        self.assertEqual(len(both.bytes), 292)
        self.assertEqual([reading.cost for reading in list_readings(both, 10)], [224, 224, 288])

    def test_two_by_three(self):
        both = two_probes(Sheet.from_rows(FIRST), Sheet.from_rows(SECOND))
        fields = [(link.source, link.ilabel, link.units(64), link.next) for link in both.links]
        self.assertEqual(fields, [(0, 7, 21, 4), (0, 7, 22, 4), (0, 8, 15, 5), (1, 7, 31, 5), (1, 7, 32, 5)])
        self.assertTrue(all(link.olabel == link.ilabel for link in both.links))
        self.assertEqual(both.finals, (None, None, None, None, 103 / 64, 203 / 64))
        self.assertEqual((both.start, len(both.bytes)), (0, 172))
        self.assertEqual([reading.cost for reading in list_readings(both, 10)], [124, 125, 218])

    def test_no_nodes_and_no_start(self):
        a, empty = sheet_a(), Sheet.write([], [], None)
        absent = Sheet.read(a_with(36, NONE))
        for pair in [(a, empty), (empty, a), (empty, empty)]:
            self.assertEqual(two_probes(*pair), empty)
        later = Sheet.read(a_with(36, 2))
        for pair in [(a, absent), (absent, a), (later, absent), (absent, later)]:
            both = two_probes(*pair)
            self.assertIsNone(both.start)
            self.assertEqual(both.bytes[:288], two_probes(a, a).bytes[:288])
        self.assertEqual((two_probes(later, a).start, two_probes(a, later).start), (8, 2))

    def test_barred_and_cancelled(self):
        both = two_probes(weighed(BARRED, 0.5), weighed(-128, -0.5))
        self.assertEqual((both.link(0).weight, both.finals[3]), (BARRED, 0))
        self.assertEqual(raw.node(both.bytes, 3).weight_bits, 0)
        self.assertEqual(len(list_readings(both, 10)), 0)
        self.assertEqual(len(list_readings(two_probes(weighed(128, 0), weighed(-128, 0)), 10)), 1)


class Refusals(unittest.TestCase):
    def assert_refused(self, number, first, second):
        """Refused with this number, the result as it was."""
        result = (ctypes.c_char * 400)(*BYTE * 400)
        self.assertEqual(refused(raw.two_probes, first, second, result), number)
        self.assertEqual(result[:], BYTE * 400)

    def test_the_first_sheet_comes_before_the_second(self):
        large = packed([0] * 3 * (NODE_LIMIT + 1) + [0, 0, NODE_LIMIT + 1, 0, NONE])
        damaged = [bytes(19), a_with(36, 4), a_with(3, 4), a_with(2, 1), large, a_with(3, 0)]
        a, zero = packed(A), a_with(0, 0)
        for number, sheet in enumerate(damaged, 1):
            for other in [a, zero, *damaged]:
                self.assert_refused(number, sheet, other)
            self.assert_refused(number, a, sheet)
            self.assert_refused(number, zero, sheet)

    def test_labels(self):
        for wrong in ["0 1 0 0\n", "0 1 7 8\n", "1 2 7 7\n0 1 8 0\n"]:
            bad = Sheet.from_rows(wrong)
            for pair in [(bad, sheet_a()), (sheet_a(), bad)]:
                self.assertEqual(refused(two_probes, *pair), Refusal.LABELS)
        # before 11 and 12
        dear = Sheet.from_rows("0 45 7 8 128\n45 100\n")
        self.assertEqual(refused(two_probes, dear, dear), Refusal.LABELS)

    def test_products(self):
        for make, one, other, told in [
            (without_links, 46, 46, Refusal.PRODUCT),
            (without_links, NODE_LIMIT, 1, 0),
            (without_links, NODE_LIMIT, 2, Refusal.PRODUCT),
            (parallel, 128, 128, 0),
            (parallel, 129, 128, Refusal.PRODUCT),
            (parallel, 1, LINK_LIMIT, 0),
            (parallel, LINK_LIMIT, 2, Refusal.PRODUCT),
        ]:
            self.assertEqual(refused(two_probes, make(one), make(other)), told)
        # before 12
        dear = Sheet.from_rows("0 45 7 7 128\n")
        self.assertEqual(refused(two_probes, dear, dear), Refusal.PRODUCT)

    def test_sums(self):
        unit = 1 / 64
        for one, other, told in [
            (128, unit, Refusal.SUM),
            (-128, -unit, Refusal.SUM),
            (128, 0, 0),
            (-64, -64, 0),
            (128, BARRED, 0),
        ]:
            self.assertEqual(refused(two_probes, weighed(one, 0), weighed(other, 0)), told)
            self.assertEqual(refused(two_probes, weighed(0, other), weighed(0, one)), told)
        # of final nodes that no run reaches
        dear = Sheet.write([], [None, 100], 0), Sheet.write([], [100], None)
        self.assertEqual(refused(two_probes, *dear), Refusal.SUM)

    def test_results_of_every_length(self):
        a = packed(A)
        whole = two_probes(sheet_a(), sheet_a()).bytes
        for room in range(len(whole) + 3):
            result = (ctypes.c_char * room)(*BYTE * room)
            number = refused(raw.two_probes, a, a, result)
            left = whole if room >= len(whole) else b""
            self.assertEqual(number, 0 if left else Refusal.RESULT)
            self.assertEqual(result[:], left + BYTE * (room - len(left)))
        self.assertEqual(raw.two_probes(a, a, raw.byte_area(400)), len(whole))
        self.assert_refused(Refusal.SUM, a_with(2, 0x43000000), a)
        self.assertEqual(refused(raw.two_probes, a_with(2, 0x43000000), a, raw.byte_area(0)), Refusal.SUM)


def judged(first, second):
    """The machine of what both allow, apart from the library; None for a sum that is off the grid."""
    nodes = len(second.finals)

    def node(i, j):
        return i * nodes + j

    links = [
        (node(l[0], k[0]), l[1], l[2] + k[2], node(l[3], k[3]))
        for l in first.links
        for k in second.links
        if l[1] == k[1]
    ]
    finals = [None if None in (x, y) else x + y for x in first.finals for y in second.finals]
    sums = [link[2] for link in links] + [units for units in finals if units is not None]
    if any(units != BARRED and abs(units) > WEIGHT_LIMIT for units in sums):
        return None
    return Machine(links, finals, node(first.start, second.start), first.unit)


class Drawn(unittest.TestCase):
    def drawn(self, r, spread):
        """A machine without label 0, with one or two, whose last node is final."""
        machine = Machine.drawn(r, r.randint(2, 6), r.randrange(16), spread, barred=r.choice([0, 4]))
        labels = r.choice([1, 2])
        machine.links = [(link[0], 1 + link[1] % labels, *link[2:]) for link in machine.links]
        machine.finals[-1] = r.randint(-spread, spread)
        return machine

    def readings(self, machine):
        """Labels, cost and end of each reading."""
        return [([machine.links[l][1] for l in numbers], cost, end) for cost, numbers, end in machine.readings()]

    def test_drawn_pairs(self):
        r, units, sums, listed = seeded(9), 0, 0, 0
        for turn in range(1600):
            spread = [1, 8, 4096, WEIGHT_LIMIT][turn % 4]
            first, second = self.drawn(r, spread), self.drawn(r, spread)
            if first.count != second.count:
                units += 1
                self.assertEqual(refused(two_probes, first.sheet(), second.sheet()), Refusal.UNIT)
                continue
            expected = judged(first, second)
            if expected is None:
                sums += 1
                self.assertEqual(refused(two_probes, first.sheet(), second.sheet()), Refusal.SUM)
                continue
            both = two_probes(first.sheet(), second.sheet())
            self.assertEqual(both, expected.sheet())
            pairs = self.pairs(first, second)
            self.assertEqual(sorted(self.readings(expected)), pairs)
            listed += self.listed(both, pairs)
        self.assertGreater(units, 100)
        self.assertGreater(sums, 100)
        self.assertGreater(listed, 1000)

    def pairs(self, first, second):
        """For each pair of readings with the same labels these, the sum of the costs, and the node for the ends."""
        nodes = len(second.finals)
        return sorted(
            (one[0], one[1] + other[1], one[2] * nodes + other[2])
            for one in self.readings(first)
            for other in self.readings(second)
            if one[0] == other[0]
        )

    def listed(self, both, pairs):
        """How many readings the library lists: these pairs, the cheapest where there are more than a list has."""
        told = [([link.ilabel for link in r.links], r.cost, r.end) for r in list_readings(both, LIST_LIMIT)]
        self.assertEqual([cost for _, cost, _ in told], sorted(cost for _, cost, _ in pairs)[:LIST_LIMIT])
        if len(pairs) <= LIST_LIMIT:
            self.assertEqual(sorted(told), pairs)
        return len(told)


if __name__ == "__main__":
    unittest.main()
