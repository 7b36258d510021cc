"""Sheets of either unit and either trailer: cases by hand, each refusal beside what just passes."""
import ctypes
import unittest
from decimal import Decimal
from fractions import Fraction

from common import A, NONE, TRAILERS, Machine, a_in, a_with, packed, refused, seeded, sheet_a

from yeldmur import LIST_LIMIT, WEIGHT_LIMIT, Areas, Link, Refusal, Sheet, best, decimal, distances, list_readings
from yeldmur import raw, split, two_probes

BYTE = b"\xa5"

# bits of single precision: 1/256, and -32
LEAST, LOWEST = 0x3B800000, 0xC2000000


def one_link(bits, last, start, *stated):
    """One link of this weight to a node of this final weight, then the trailer, by their words."""
    return packed([7, 7, bits, 1, 1, 0, 0, 0, 1, last, 0, 16, 2, 1, start, *stated])


def stating(unit):
    """Sheet A by the unit that its trailer states, or None for the shorter."""
    return Sheet.read(packed(A) if unit is None else a_in(unit))


def longer(unit, place, word):
    """The bytes of Sheet A with the longer trailer and one word of it changed, by its place there from 0."""
    words = [*A, unit]
    words[32 + place] = word
    return packed(words)


class Read(unittest.TestCase):
    def test_a_of_each(self):
        for unit, trailer in TRAILERS.items():
            sheet = stating(unit)
            told = (sheet.unit, sheet.stated_unit, sheet.trailer, len(sheet.bytes))
            self.assertEqual(told, (unit or 64, unit, trailer, 128 + trailer))
            self.assertEqual((sheet.links, sheet.finals, sheet.start), (sheet_a().links, sheet_a().finals, 0))
            self.assertEqual(raw.unit(sheet.bytes), unit or 64)
        self.assertEqual(repr(stating(256)), "<Sheet: 4 nodes, 5 links, start 0, unit 256>")
        self.assertEqual(repr(stating(64)), "<Sheet: 4 nodes, 5 links, start 0, unit 64>")
        self.assertEqual(len({stating(unit) for unit in TRAILERS}), 3)

    def test_the_grid_is_that_of_the_unit(self):
        self.assertEqual(refused(Sheet.read, one_link(LEAST, LOWEST, 0, 256)), 0)
        self.assertEqual(refused(Sheet.read, one_link(LEAST, LOWEST, 0, 64)), Refusal.WEIGHT)
        self.assertEqual(refused(Sheet.read, one_link(LEAST, LOWEST, 0)), Refusal.WEIGHT)
        sheet = Sheet.read(one_link(LEAST, LOWEST, 0, 256))
        self.assertEqual((sheet.link(0).weight, sheet.finals[1]), (1 / 256, -32))
        self.assertEqual((sheet.link(0).units(256), sheet.link(0).units(1024)), (1, 4))
        self.assertRaises(ValueError, sheet.link(0).units, 64)
        # 32 + 1/256 and 33 are beyond in the finer unit, and 33 is not in the other
        for bits, fine, coarse in [(0x42000000, 0, 0), (0x42000400, 4, 4), (0x42040000, 4, 0), (0x43000000, 4, 0)]:
            self.assertEqual(refused(Sheet.read, one_link(0, bits, 0, 256)), fine)
            self.assertEqual(refused(Sheet.read, one_link(0, bits, 0, 64)), coarse)
            self.assertEqual(refused(Sheet.read, one_link(0, bits, 0)), coarse)

    def test_14_comes_right_after_1(self):
        for unit in [0, 1, 32, 63, 65, 128, 255, 257, 512, 2**31, NONE]:
            self.assertEqual(refused(Sheet.read, a_in(unit)), Refusal.UNIT)
            # with a start of 7, a link to node 9 and a weight of 0.3 too; and with a mark of 2
            words = [*A, unit]
            words[36], words[3], words[6] = 7, 9, 0x3E99999A
            for call in [Sheet.read, raw.unit, raw.sheet_counts, raw.sheet_rows_bytes, lambda s: raw.areas(s, 65)]:
                self.assertEqual(refused(call, packed(words)), Refusal.UNIT)
            words[30] = 2
            self.assertEqual(refused(Sheet.read, packed(words)), Refusal.LAYOUT)
        self.assertEqual(refused(Sheet.read, one_link(LEAST, LOWEST, 7, 128)), Refusal.UNIT)
        self.assertEqual(refused(Sheet.read, one_link(LEAST, LOWEST, 7, 256)), Refusal.START)

    def test_each_field_of_the_longer_trailer(self):
        for unit in [64, 256]:
            self.assertEqual(longer(unit, 5, unit), a_in(unit))
            for place, word in [(0, 4), (1, 64), (1, 0), (2, 5), (2, 3), (3, 4), (3, 6), (3, 0)]:
                self.assertEqual(refused(Sheet.read, longer(unit, place, word)), Refusal.LAYOUT)
            self.assertEqual(refused(Sheet.read, longer(unit, 4, 4)), Refusal.START)
            self.assertEqual(refused(Sheet.read, longer(unit, 5, 80)), Refusal.UNIT)
            self.assertEqual(refused(Sheet.read, longer(unit, 4, NONE)), 0)

    def test_a_word_more_and_a_word_less(self):
        # a word behind the shorter trailer makes it the longer, and without its last word that is the shorter
        for word in [0, 20, 24, 0x40000000]:
            self.assertEqual(refused(Sheet.read, packed([*A, word])), Refusal.UNIT)
        self.assertEqual(a_in(256)[:-4], packed(A))
        self.assertEqual(refused(Sheet.read, one_link(LEAST, LOWEST, 0, 256)[:-4]), Refusal.WEIGHT)
        for more in range(1, 12):
            self.assertEqual(refused(Sheet.read, a_in(256) + bytes(more)), Refusal.LAYOUT)
            self.assertEqual(refused(Sheet.read, bytes(more) + packed(A)), Refusal.LAYOUT)
            if more != 4:
                self.assertEqual(refused(Sheet.read, packed(A) + bytes(more)), Refusal.LAYOUT)
                self.assertEqual(refused(Sheet.read, a_in(256)[:-more]), Refusal.LAYOUT)
            self.assertEqual(refused(Sheet.read, a_in(256)[more:]), Refusal.LAYOUT)

    def test_no_nodes(self):
        for unit in [64, 256]:
            empty = packed([0, 0, 0, 0, NONE, unit])
            sheet = Sheet.read(empty)
            self.assertEqual((sheet.trailer, sheet.unit), (24, unit))
            self.assertEqual((sheet.links, sheet.finals, sheet.start), ((), (), None))
            self.assertEqual(refused(Sheet.read, empty[1:]), Refusal.LAYOUT)
            self.assertEqual(refused(Sheet.read, empty[:-1]), Refusal.LAYOUT)
            self.assertEqual((distances(sheet), best(sheet)), ([], None))
            for n in range(LIST_LIMIT + 1):
                result = (ctypes.c_char * 25)(*BYTE * 25)
                work = raw.word_area(raw.SLOT * raw.areas(empty, n).slots)
                self.assertEqual(refused(raw.shortest_path, empty, n, work, raw.byte_area(23)), Refusal.RESULT)
                self.assertEqual(raw.shortest_path(empty, n, work, result), (0, 0, 0))
                self.assertEqual(result[:], empty + BYTE)


class Written(unittest.TestCase):
    def test_by_hand(self):
        link = (0, 7, 7, 1 / 256, 1)
        for weight in [1 / 256, Fraction(1, 256), Decimal("0.00390625")]:
            sheet = Sheet.write([(0, 7, 7, weight, 1)], [None, -32], 0, 256)
            self.assertEqual(sheet.bytes, one_link(LEAST, LOWEST, 0, 256))
        self.assertEqual(sheet.links, (Link(*link),))
        self.assertEqual(Sheet.write([], [], None, 64).bytes, packed([0, 0, 0, 0, NONE, 64]))
        for unit, told in [(None, 4), (64, 4), (128, 14), (256, 0)]:
            self.assertEqual(refused(Sheet.write, [link], [None, -32], 0, unit), told)

    def test_refusals_in_order(self):
        link, nowhere = (0, 7, 7, 0.3, 9), (2, 7, 7, 0, 1)
        for unit in [0, 128, 257, 2**32 - 1, 2**32, 2**80]:
            self.assertEqual(refused(Sheet.write, [link], [None, 0], 7, unit), Refusal.UNIT)
            self.assertEqual(refused(Sheet.write, [nowhere], [None, 0], 7, unit), Refusal.LAYOUT)
        self.assertEqual(refused(Sheet.write, [link], [None, 0], 7, 256), Refusal.START)
        for wrong in [-1, 1.5, "256"]:
            self.assertRaises((TypeError, ctypes.ArgumentError), Sheet.write, [], [], None, wrong)

    def test_every_weight(self):
        for unit in TRAILERS:
            count = unit or 64
            weights = [units / count for units in range(-WEIGHT_LIMIT, WEIGHT_LIMIT + 1)]
            sheet = Sheet.write([], weights, None, unit)
            self.assertEqual(list(sheet.finals), weights)
            for beyond in [WEIGHT_LIMIT + 1, -WEIGHT_LIMIT - 1, Fraction(1, 2), Fraction(-1, 2)]:
                self.assertEqual(refused(Sheet.write, [], [Fraction(beyond) / count], None, unit), Refusal.WEIGHT)

    def test_no_rows_with_the_longer_trailer(self):
        for unit in [64, 256]:
            self.assertEqual(refused(stating(unit).rows), Refusal.NO_ROWS)
            self.assertEqual(refused(raw.sheet_rows_bytes, a_in(unit)), Refusal.NO_ROWS)
            self.assertEqual(refused(raw.sheet_to_rows, a_in(unit), raw.byte_area(0)), Refusal.NO_ROWS)
            self.assertEqual(refused(raw.sheet_to_rows, one_link(0x3E99999A, 0, 0, unit), raw.byte_area(0)), 4)
        self.assertIsNone(Sheet.from_rows("0 0.015625\n").stated_unit)
        self.assertEqual(refused(Sheet.from_rows, "0 0.003906\n"), Refusal.WEIGHT)


class Costs(unittest.TestCase):
    def test_of_a(self):
        for unit, costs, values in [
            (None, [112, 112, 144], [0, 64, 32, 80]),
            (64, [112, 112, 144], [0, 64, 32, 80]),
            (256, [448, 448, 576], [0, 256, 128, 320]),
        ]:
            sheet = stating(unit)
            for n, taken in [(1, 0), (2, 8), (3, 11), (4, 11), (LIST_LIMIT, 11)]:
                listed = list_readings(sheet, n)
                self.assertEqual([reading.cost for reading in listed], costs[:n])
                self.assertEqual([str(reading.cost_decimal) for reading in listed], ["1.75", "1.75", "2.25"][:n])
                self.assertEqual([r.numbers for r in listed], [(0, 2), (1, 4), (0, 3, 4)][:n])
                self.assertEqual({reading.unit for reading in listed}, {unit or 64})
                self.assertEqual(listed.taken, taken)
            self.assertEqual(distances(sheet), values)

    def test_exact_decimals(self):
        for units, text in [(1, "0.00390625"), (-1, "-0.00390625"), (257, "1.00390625"), (-8192, "-32"), (0, "0")]:
            self.assertEqual(str(decimal(units, 256)), text)
        for units in range(-WEIGHT_LIMIT, WEIGHT_LIMIT + 1):
            self.assertEqual(decimal(units, 256), Decimal(units * 390625).scaleb(-8))

    def test_costs_of_two_units(self):
        coarse, fine = best(stating(64)), best(stating(256))
        self.assertNotEqual(coarse, fine)
        self.assertEqual(coarse.cost_decimal, fine.cost_decimal)
        self.assertEqual(repr(coarse), "Reading(cost=112, unit=64, numbers=(0, 2), end=3)")
        self.assertEqual(repr(fine), "Reading(cost=448, unit=256, numbers=(0, 2), end=3)")

    def test_the_longest_chain(self):
        nodes = 2048
        links = [(v, 1, 1, 32, v + 1) for v in range(nodes - 1)]
        chain = Sheet.write(links, [None] * (nodes - 1) + [32], 0, 256)
        for n in [1, 2, LIST_LIMIT]:
            (reading,) = list_readings(chain, n)
            self.assertEqual((reading.cost, reading.cost_decimal), (2**24, 65536))
        self.assertEqual(distances(chain), [8192 * v for v in range(nodes)])


class Answers(unittest.TestCase):
    def answer(self, sheet, n):
        """The bytes of a list, and what its call told."""
        needed = raw.areas(sheet, n)
        result = (ctypes.c_char * needed.bytes)(*BYTE * needed.bytes)
        listed = raw.shortest_path(sheet, n, raw.word_area(raw.SLOT * needed.slots), result)
        return result[:], listed

    def test_a_list_has_the_trailer_of_its_sheet(self):
        for n in [0, 1, 2, 3, LIST_LIMIT]:
            short, listed = self.answer(packed(A), n)
            end = raw.sheet_size(listed.states, listed.links, 20)
            whole = end + 4 * listed.links
            for unit in [64, 256]:
                result, told = self.answer(a_in(unit), n)
                self.assertEqual(told, listed)
                self.assertEqual(result[: whole + 4], short[:end] + packed([unit]) + short[end:whole])
                self.assertEqual(result[whole + 4 :], BYTE * (len(result) - whole - 4))
                self.assertEqual(len(result), len(short) + 4)
                machine = Sheet.read(result[: end + 4])
                self.assertEqual((machine.unit, machine.stated_unit), (unit, unit))

    def test_without_readings(self):
        for unit in [64, 256]:
            none = Sheet.write([(0, 7, 7, 1, 1)], [None, None], 0, unit)
            for n in [0, 1, 2, LIST_LIMIT]:
                result, listed = self.answer(none.bytes, n)
                self.assertEqual((listed, result[:24]), ((0, 0, 0), packed([0, 0, 0, 0, NONE, unit])))

    def test_a_word_behind_the_answer_that_looks_like_a_unit(self):
        # the only link of the best reading is link 64, or link 256: the word right behind the shorter trailer
        for number in [64, 256]:
            links = [(0, 7, 7, 0 if l == number else 1, 1) for l in range(300)]
            for unit in TRAILERS:
                sheet = Sheet.write(links, [None, 0], 0, unit)
                result, listed = self.answer(sheet.bytes, 1)
                end = raw.sheet_size(2, 1, TRAILERS[unit])
                self.assertEqual((listed.states, listed.links, result[end : end + 4]), (2, 1, packed([number])))
                run = raw.word_area(1)
                told = raw.reading(sheet.bytes, 1, result[: end + 4], 2, 1, 0, run)
                self.assertEqual((told, run[:]), ((1, 0, 1), [number]))
                self.assertEqual([(r.cost, r.numbers) for r in list_readings(sheet, 1)], [(0, (number,))])

    def test_read_back_by_the_trailer_of_the_sheet(self):
        run = raw.word_area(9)
        for n in [1, 2, 3]:
            short, listed = self.answer(packed(A), n)
            long, _ = self.answer(a_in(256), n)
            counts = (listed.states, listed.links)
            length = raw.sheet_size(*counts, 20) + 4 * listed.links
            self.assertEqual(raw.reading(packed(A), n, short[:length], *counts, 0, run).cost, 112)
            self.assertEqual(raw.reading(a_in(256), n, long[: length + 4], *counts, 0, run).cost, 448)
            for result in [short[:length], long[: length + 3]]:
                self.assertEqual(refused(raw.reading, a_in(256), n, result, *counts, 0, run), Refusal.NO_ANSWER)
            # without a sheet as many bytes as with the shorter trailer are enough
            self.assertEqual(raw.readings(long[:length], n, *counts), n)

    def test_areas_that_are_kept(self):
        r, kept = seeded(12), Areas()
        for _ in range(100):
            sheet = Machine.drawn(r, r.randint(2, 9), r.randrange(20), 5).sheet()
            n = r.randrange(5)
            listed = kept.list_readings(sheet, n)
            self.assertEqual(listed, list_readings(sheet, n))
            self.assertEqual({reading.unit for reading in listed} - {sheet.unit}, set())


class TwoSheets(unittest.TestCase):
    def test_the_answer_has_the_first_trailer(self):
        for one, other in [(None, None), (None, 64), (64, None), (64, 64), (256, 256)]:
            both = two_probes(stating(one), stating(other))
            self.assertEqual((both.stated_unit, len(both.bytes)), (one, 272 + TRAILERS[one]))
            alike = two_probes(stating(None), stating(None))
            self.assertEqual((both.links, both.finals, both.start), (alike.links, alike.finals, alike.start))
            self.assertEqual([reading.cost_decimal for reading in list_readings(both, 10)], [3.5, 3.5, 4.5])
            room = raw.byte_area(len(both.bytes) - 1)
            given = stating(one).bytes, stating(other).bytes
            self.assertEqual(refused(raw.two_probes, *given, room), Refusal.RESULT)

    def test_unequal_units(self):
        for coarse in [None, 64]:
            for pair in [(stating(coarse), stating(256)), (stating(256), stating(coarse))]:
                self.assertEqual(refused(two_probes, *pair), Refusal.UNIT)
        empty = Sheet.write([], [], None), Sheet.write([], [], None, 256)
        self.assertEqual(refused(two_probes, *empty), Refusal.UNIT)

    def assert_refused(self, number, first, second):
        result = (ctypes.c_char * 400)(*BYTE * 400)
        self.assertEqual(refused(raw.two_probes, first, second, result), number)
        self.assertEqual(result[:], BYTE * 400)

    def test_14_in_its_place(self):
        fine, short = a_in(256), packed(A)
        # the first's own 14 before its 2, and all of the first before the second
        self.assert_refused(14, longer(128, 4, 7), bytes(19))
        self.assert_refused(2, longer(256, 4, 7), short)
        self.assert_refused(2, longer(256, 4, 7), a_in(128))
        self.assert_refused(6, a_with(3, 0) + packed([256]), short)
        # the second's 1 before it, and its 2 to 6 after
        self.assert_refused(1, fine, bytes(19))
        self.assert_refused(1, fine, short[1:])
        for place, word in [(36, 4), (3, 4), (2, 1), (3, 0)]:
            self.assert_refused(14, fine, a_with(place, word))
            self.assert_refused(14, short, a_with(place, word) + packed([256]))
            self.assert_refused(14, short, a_with(place, word) + packed([128]))
        # 10 to 12 of both after it, here a label of 0
        self.assert_refused(14, fine, a_with(0, 0))
        self.assert_refused(14, a_with(0, 0), fine)
        self.assert_refused(10, short, a_with(0, 0) + packed([64]))

    def test_sums_in_the_unit(self):
        def weighed(weight, unit):
            return Sheet.write([(0, 7, 7, weight, 1)], [None, 0], 0, unit)

        for unit, limit in [(None, 128), (64, 128), (256, 32)]:
            least = 1 / (unit or 64)
            for one, other, told in [(limit, 0, 0), (limit, least, 12), (-limit, -least, 12), (limit, -least, 0)]:
                self.assertEqual(refused(two_probes, weighed(one, unit), weighed(other, unit)), told)


class Parts(unittest.TestCase):
    def test_both_keep_the_trailer(self):
        for unit, trailer in TRAILERS.items():
            links = [(0, 7, 7, 1, 1), (0, 8, 8, 0.5, 1), (1, 7, 7, 0.25, 2)]
            whole = Sheet.write(links, [None, None, 0.5], 0, unit)
            parts = split(whole, 1)
            self.assertEqual(parts.first.sheet, Sheet.write(links[:2], [None, 0], 0, unit))
            self.assertEqual(parts.second.sheet, Sheet.write([(0, 7, 7, 0.25, 1)], [None, 0.5], 0, unit))
            size = raw.split_size(3, 3, trailer)
            room = raw.byte_area(size - 1)
            self.assertEqual(refused(raw.split, whole.bytes, 1, room), Refusal.RESULT)
            self.assertEqual(raw.split(whole.bytes, 1, raw.byte_area(size)), (2, 1))
            joined = parts.join(best(parts.first.sheet), best(parts.second.sheet))
            self.assertEqual((joined, joined.cost_decimal), (best(whole), Decimal("1.25")))


if __name__ == "__main__":
    unittest.main()
