"""Barred links and final nodes: what is accepted, which readings are left, and how long the distances are."""
import unittest
from decimal import Decimal

from common import a_with, refused

from yeldmur import BARRED, Areas, Link, Refusal, Sheet, best, distances, list_readings, raw

BITS = 0x7F800000

# a barred link beside one that is not, a barred one on the way, a barred final node, and a node that is led to from an
# unreached node alone
E_ROWS = "0\t1\t1\t1\t5\n0\t1\t2\t2\tInfinity\n1\t2\t3\t3\tInfinity\n1\t1\n2\t3\t4\t4\n2\tInfinity\n3\n"


class Weights(unittest.TestCase):
    def test_one_pattern_alone(self):
        link = Sheet.read(a_with(2, BITS)).link(0)
        self.assertEqual((link.weight, link.units(64), link.units(256)), (BARRED, None, None))
        self.assertEqual(Sheet.read(a_with(31, BITS)).finals[3], BARRED)
        self.assertEqual(raw.link(a_with(2, BITS), 0), (1, 1, BITS, 1))
        self.assertEqual(raw.node(a_with(31, BITS), 3), (0, 1, BITS))
        for bits in [BITS - 1, BITS + 1, BITS | 1 << 31, 0x7FC00000]:
            for place in [2, 31]:
                self.assertEqual(refused(Sheet.read, a_with(place, bits)), Refusal.WEIGHT)
        self.assertEqual(refused(Sheet.read, a_with(22, BITS)), Refusal.LAYOUT)

    def test_written_in_any_kind_of_number(self):
        for weight in [BARRED, float("inf"), Decimal("Infinity")]:
            sheet = Sheet.write([(0, 1, 1, weight, 1)], [None, weight], 0)
            self.assertEqual(sheet.link(0), Link(0, 1, 1, BARRED, 1))
            self.assertEqual(sheet.finals, (None, BARRED))

    def test_rows(self):
        sheet = Sheet.from_rows(E_ROWS)
        self.assertEqual(sheet.rows(), E_ROWS)
        self.assertEqual(Sheet.write(sheet.links, sheet.finals, sheet.start), sheet)
        for weight in ["infinity", "INFINITY", "inf", "Infinit", "Infinity1", "-Infinity", "+Infinity"]:
            self.assertEqual(refused(Sheet.from_rows, f"0 {weight}\n"), Refusal.ROWS)


class Searches(unittest.TestCase):
    def test_the_reading_of_e(self):
        sheet, areas = Sheet.from_rows(E_ROWS), Areas()
        for n, taken in [(1, 0), (2, 13), (3, 16), (64, 19)]:
            listed = areas.list_readings(sheet, n)
            self.assertEqual([(r.cost, r.numbers, r.end) for r in listed], [(384, (0,), 1)])
            self.assertEqual(listed.taken, taken)
        self.assertEqual(distances(sheet), [0, 320, None])

    def test_all_readings_barred(self):
        for rows, values in [
            ("0 1 1 1 Infinity\n1\n", [0, None]),
            ("0 1 1 1 0.5\n1 Infinity\n", [0, 32]),
            ("0 Infinity\n", [0]),
        ]:
            sheet = Sheet.from_rows(rows)
            for n in [0, 1, 2, 64]:
                listed = list_readings(sheet, n)
                self.assertEqual((len(listed), listed.taken), (0, 0))
            self.assertIsNone(best(sheet))
            self.assertEqual(distances(sheet), values)

    def test_length_of_the_distances(self):
        for rows, values in [
            ("0 1 1 1 1\n1 4 1 1 Infinity\n", [0, 64, None, None, None]),
            ("0 1 1 1 1\n2 4 1 1 Infinity\n", [0, 64]),
            ("1\n0 4 1 1 Infinity\n", [None, 0]),
            ("0 3 1 1 Infinity\n3 4 1 1\n", [0, None, None, None]),
            ("0 1 1 1 Infinity\n0 1 1 1 -2\n", [0, -128]),
        ]:
            self.assertEqual(distances(Sheet.from_rows(rows)), values)


if __name__ == "__main__":
    unittest.main()
