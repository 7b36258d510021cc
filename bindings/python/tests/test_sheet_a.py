"""The bench values of the requirements."""
import unittest
from decimal import Decimal

from common import A_ROWS, NONE, a_with, found, packed, refused, sheet_a

import yeldmur
from yeldmur import LINK_LIMIT, LIST_LIMIT, NODE_LIMIT, WEIGHT_LIMIT, Areas, Link, Refusal, Sheet


class SheetA(unittest.TestCase):
    def setUp(self):
        self.sheet = sheet_a()

    def test_its_bytes(self):
        self.assertEqual(len(self.sheet.bytes), 148)
        self.assertEqual(Sheet.from_rows(A_ROWS), self.sheet)

    def test_distances(self):
        self.assertEqual(yeldmur.distances(self.sheet), [0, 64, 32, 80])

    def test_the_best(self):
        best = yeldmur.best(self.sheet)
        self.assertEqual((best.cost, best.numbers, best.end), (112, (0, 2), 3))
        self.assertEqual(best.cost_decimal, Decimal("1.75"))
        self.assertEqual(str(best.cost_decimal), "1.75")
        self.assertEqual([link.ilabel for link in best.links], [1, 3])

    def test_lists(self):
        all_three = [(112, (0, 2)), (112, (1, 4)), (144, (0, 3, 4))]
        for n, taken in [(0, 0), (1, 0), (2, 8), (3, 11), (4, 11), (LIST_LIMIT, 11)]:
            listed = yeldmur.list_readings(self.sheet, n)
            self.assertEqual([(r.cost, r.numbers) for r in listed], all_three[:n])
            self.assertEqual(listed.taken, taken)
            self.assertEqual(len(listed), min(n, 3))

    def test_a_list_by_place(self):
        listed = yeldmur.list_readings(self.sheet, 2)
        self.assertEqual(listed[-1], listed.readings[1])
        self.assertRaises(IndexError, lambda: listed[2])

    def test_n_above_the_limit(self):
        for n in [LIST_LIMIT + 1, 2**32 - 1, 2**32, 2**32 + 1, 2**80]:
            self.assertEqual(refused(yeldmur.list_readings, self.sheet, n), Refusal.COUNT)

    def test_a_link_to_its_own_node(self):
        own = Sheet.read(a_with(3, 0))
        for call in [yeldmur.best, yeldmur.distances, lambda s: yeldmur.list_readings(s, 65)]:
            self.assertEqual(refused(call, own), Refusal.CLIMB)

    def test_no_nodes(self):
        none = Sheet.read(packed([0, 0, 0, 0, NONE]))
        self.assertEqual((none.start, none.links, none.finals), (None, (), ()))
        self.assertEqual(yeldmur.distances(none), [])
        self.assertIsNone(yeldmur.best(none))
        self.assertEqual(found(none, LIST_LIMIT, Areas()), [])

    def test_a_reading_without_links(self):
        sheet = Sheet.write([], [None, -0.25], 1)
        for n in [1, 2, LIST_LIMIT]:
            (reading,) = yeldmur.list_readings(sheet, n)
            self.assertEqual((reading.cost, reading.numbers, reading.links, reading.end), (-16, (), (), 1))
        self.assertEqual(yeldmur.distances(sheet), [None, 0])


class AtTheLimits(unittest.TestCase):
    def test_the_longest_chain(self):
        links = [Link(v, v + 1, v + 1, 128, v + 1) for v in range(NODE_LIMIT - 1)]
        finals = [None] * (NODE_LIMIT - 1) + [128]
        chain = Sheet.write(links, finals, 0)
        along = tuple(range(NODE_LIMIT - 1))
        for n in [1, 2, LIST_LIMIT]:
            (reading,) = yeldmur.list_readings(chain, n)
            self.assertEqual((reading.cost, reading.end), (262_144 * 64, NODE_LIMIT - 1))
            self.assertEqual(reading.numbers, along)
        self.assertEqual(yeldmur.distances(chain), [128 * 64 * v for v in range(NODE_LIMIT)])

    def test_one_node_more(self):
        sheet = Sheet.write([], [None] * (NODE_LIMIT + 1), 0)
        self.assertEqual(refused(yeldmur.distances, sheet), Refusal.LIMITS)
        self.assertEqual(refused(yeldmur.list_readings, sheet, 0), Refusal.LIMITS)

    def test_links(self):
        links = [Link(0, 7, 7, 0, 1)] * (LINK_LIMIT + 1)
        most = Sheet.write(links[1:], [None, 0], 0)
        self.assertEqual(len(yeldmur.list_readings(most, LIST_LIMIT)), LIST_LIMIT)
        more = Sheet.write(links, [None, 0], 0)
        self.assertEqual(refused(yeldmur.best, more), Refusal.LIMITS)

    def test_weights(self):
        for units in [WEIGHT_LIMIT, -WEIGHT_LIMIT]:
            self.assertEqual(Sheet.write([], [units / 64], 0).finals, (units / 64,))
            beyond = units + (1 if units > 0 else -1)
            self.assertEqual(refused(Sheet.write, [], [beyond / 64], 0), Refusal.WEIGHT)


if __name__ == "__main__":
    unittest.main()
