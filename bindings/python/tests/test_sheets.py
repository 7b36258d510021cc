"""Sheets written, read and looked at; text rows."""
import copy
import unittest
from decimal import Decimal, localcontext
from fractions import Fraction

from common import A, A_ROWS, Machine, packed, refused, seeded, sheet_a

from yeldmur import BARRED, WEIGHT_LIMIT, Link, Refusal, Sheet, decimal, raw


def again(sheet):
    return Sheet.write(sheet.links, sheet.finals, sheet.start, sheet.stated_unit)


class Fields(unittest.TestCase):
    def test_what_a_holds(self):
        a = sheet_a()
        self.assertEqual((a.node_count, a.link_count, a.final_count, a.start), (4, 5, 1, 0))
        self.assertEqual(a.finals, (None, None, None, 0.5))
        self.assertEqual(a.link(3), Link(1, 5, 5, 0.0, 2))
        self.assertEqual([link.source for link in a.links], [0, 0, 1, 1, 2])
        self.assertEqual([link.units(64) for link in a.links], [64, 32, 16, 0, 48])
        self.assertEqual(raw.node(a.bytes, 3), (0, 1, 0x3F000000))
        for call, number in [(raw.link, 5), (raw.node, 4), (raw.link, 2**32 - 1), (raw.node, 2**32 - 1)]:
            self.assertEqual(refused(call, a.bytes, number), Refusal.ABSENT)
        self.assertEqual(refused(a.link, 5), Refusal.ABSENT)
        self.assertEqual(repr(a), "<Sheet: 4 nodes, 5 links, start 0>")

    def test_nodes_without_links_between(self):
        links = [Link(1, 10, 20, 0.5, 4), Link(4, 11, 21, -0.5, 5), Link(4, 12, 22, 1, 6)]
        self.assertEqual(Sheet.write(links, [0] * 7, 1).links, tuple(links))

    def test_equal_by_bytes(self):
        a = sheet_a()
        self.assertEqual(a, Sheet.read(bytearray(a.bytes)))
        self.assertEqual(hash(a), hash(Sheet.read(memoryview(a.bytes))))
        self.assertNotEqual(a, Sheet.write(a.links, a.finals, 1))
        self.assertNotEqual(a, a.bytes)
        self.assertEqual(copy.deepcopy(a), a)

    def test_a_number_is_no_sheet(self):
        self.assertRaises(TypeError, Sheet.read, 20)
        self.assertRaises(TypeError, Sheet.from_rows, 20)


class Writing(unittest.TestCase):
    def test_links_in_the_order_of_their_sources(self):
        given = [(2, 1, 1, 0, 3), (0, 2, 2, 0, 1), (2, 3, 3, 0, 3), (0, 4, 4, 0, 2)]
        sheet = Sheet.write(given, [None] * 4, None)
        self.assertEqual([(link.source, link.ilabel) for link in sheet.links], [(0, 2), (0, 4), (2, 1), (2, 3)])
        self.assertIsNone(sheet.start)

    def test_labels_at_their_ends(self):
        links = (Link(0, 2**32 - 1, 0, -128, 1), Link(0, 0, 2**32 - 1, 1 / 64, 0))
        self.assertEqual(Sheet.write(links, [None, 128], None).links, links)

    def test_numbers_that_do_not_fit(self):
        for wrong in [(0, -1, 1, 0, 1), (0, 1, 2**32, 0, 1), (0, 1, 1, 0, 2**32), (0, 1, 1, 0, -1)]:
            self.assertRaises(OverflowError, Sheet.write, [wrong], [None, 0], 0)

    def test_what_the_writer_refuses(self):
        link = (0, 1, 1, 0, 1)
        for source in [2, -1, 2**32]:
            self.assertEqual(refused(Sheet.write, [(source, *link[1:])], [None, 0], 0), Refusal.LAYOUT)
        for start in [2, 2**32 - 1, 2**32]:
            self.assertEqual(refused(Sheet.write, [link], [None, 0], start), Refusal.START)
        self.assertEqual(refused(Sheet.write, [(*link[:4], 2)], [None, 0], 0), Refusal.NEXT)

    def test_weights_in_any_kind_of_number(self):
        for weight in [1.5, Fraction(3, 2), Decimal("1.5")]:
            sheet = Sheet.write([(0, 1, 1, weight, 1)], [None, weight], 0)
            self.assertEqual((sheet.link(0).weight, sheet.finals[1]), (1.5, 1.5))

    def test_weights_are_not_rounded_onto_the_grid(self):
        close = 1.5 + 2**-40  # single precision would make it 1.5
        wrong = [0.3, close, Fraction(close), Decimal(close), float("nan"), -BARRED, Decimal("-Infinity"), -0.0]
        # single precision, and some of them as a float, would make these infinity, which bars
        large = [10**400, Fraction(10**400), Decimal("1e400"), 1e300, 2.0**128]
        for weight in [*wrong, *large, Fraction(1, 3), -(10**400), 2**24 + 1]:
            self.assertEqual(refused(Sheet.write, [], [weight], 0), Refusal.WEIGHT)
            self.assertEqual(refused(Sheet.write, [(0, 1, 1, weight, 0)], [None], 0), Refusal.WEIGHT)


class RoundTrips(unittest.TestCase):
    def test_drawn_machines(self):
        r, with_rows = seeded(1), 0
        for _ in range(1500):
            machine = Machine.drawn(r, r.randint(2, 9), r.randrange(15), r.choice([1, WEIGHT_LIMIT]), barred=4)
            sheet = machine.sheet()
            self.assertEqual(again(sheet), sheet)
            self.assertEqual(Sheet.read(sheet.bytes), sheet)
            if refused(sheet.rows) == 0:
                with_rows += 1
                self.assertIsNone(machine.unit)
                self.assertEqual(Sheet.from_rows(sheet.rows()), sheet)
                self.assertEqual(Sheet.from_rows(sheet.rows().encode()), sheet)
        self.assertGreater(with_rows, 100)

    def test_words_by_hand_are_what_the_writer_writes(self):
        self.assertEqual(again(sheet_a()).bytes, packed(A))

    def test_every_unit_as_a_decimal(self):
        with localcontext() as context:
            context.prec = 2  # decimals are exact whatever the precision of the context is
            for units in range(-WEIGHT_LIMIT, WEIGHT_LIMIT + 1):
                text = f"{decimal(units, 64):f}"
                sheet = Sheet.from_rows(f"0 {text}\n")
                self.assertEqual(int(sheet.finals[0] * 64), units)
        self.assertEqual(str(decimal(2**24, 64)), "262144")
        self.assertEqual(str(decimal(1 - 2**24, 64)), "-262143.984375")
        self.assertEqual(str(decimal(2**24, 256)), "65536")
        self.assertEqual(str(decimal(1 - 2**24, 256)), "-65535.99609375")


class Rows(unittest.TestCase):
    def test_rows_of_a(self):
        expected = A_ROWS.replace(" ", "\t")
        self.assertEqual(sheet_a().rows(), expected)
        self.assertEqual(Sheet.from_rows(bytearray(A_ROWS, "ascii")).rows(), expected)

    def test_texts_that_are_refused(self):
        self.assertEqual(refused(Sheet.from_rows, "4294967295\n"), Refusal.LAYOUT)
        self.assertEqual(refused(Sheet.from_rows, "0 0.3\n"), Refusal.WEIGHT)
        for text in ["", "0", "0 1 7\n", "0 0\r\n", "\u0660\n", "0\u00a00\n", "\udc80\n", "0\n0\n", b"\xff\n"]:
            self.assertEqual(refused(Sheet.from_rows, text), Refusal.ROWS)

    def test_a_sheet_without_rows(self):
        self.assertEqual(refused(Sheet.write([], [], None).rows), Refusal.NO_ROWS)

    def test_more_nodes_than_a_search_takes(self):
        sheet = Sheet.from_rows("200000 3 1 1\n131072\n")
        self.assertEqual((sheet.node_count, sheet.start), (200_001, 200_000))
        self.assertEqual(sheet.link(0), Link(200_000, 1, 1, 0, 3))


if __name__ == "__main__":
    unittest.main()
