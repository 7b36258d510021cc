"""Results read back, whole and damaged: what is told is refused, or a reading of the sheet at its cost."""
import unittest

from common import MACHINE_A, Machine, a_in, packed, refused, seeded, sheet_a

from yeldmur import LIST_LIMIT, NODE_LIMIT, Refusal, Sheet, raw

MARK = 0xDEADBEEF


def answer(sheet, n):
    """The bytes of a list, as long as they are, and the counts that it told."""
    needed = raw.areas(sheet.bytes, n)
    result = raw.byte_area(needed.bytes)
    listed = raw.shortest_path(sheet.bytes, n, raw.word_area(raw.SLOT * needed.slots), result)
    length = raw.sheet_size(listed.states, listed.links, sheet.trailer) + 4 * listed.links
    return result[:length], listed.states, listed.links


def damaged(data):
    """The bytes with one of them changed, each in several ways."""
    for place, byte in enumerate(data):
        for changed in {byte ^ 1, byte ^ 0x80, (byte + 1) % 256, 0xFF} - {byte}:
            yield data[:place] + bytes([changed]) + data[place + 1 :]


class Lists(unittest.TestCase):
    # the bytes of the trailer beyond those of the shorter, which `readings`, without a sheet, does not ask for
    more = 0

    def setUp(self):
        self.sheet, self.machine = sheet_a(), MACHINE_A

    def told(self, n, result, counts, k):
        """The number of the refusal, or 0 where what is told is a reading of the machine at its cost."""
        run = raw.word_area(NODE_LIMIT)
        try:
            told = raw.reading(self.sheet.bytes, n, result, *counts, k, run)
        except Refusal as refusal:
            return refusal.number
        self.assertEqual((told.cost, told.end), self.machine.cost_and_end(run[: told.links]))
        return 0

    def test_each_byte_damaged(self):
        told = []
        for n in [1, 2, 3, 4]:
            result, *counts = answer(self.sheet, n)
            for changed in damaged(result):
                count = refused(raw.readings, changed, n, *counts)
                self.assertIn(count, [0, Refusal.NO_ANSWER])
                told += [self.told(n, changed, counts, k) for k in range(n)]
        self.assertLessEqual(set(told), {0, Refusal.NO_ANSWER, Refusal.ABSENT})
        self.assertGreater(told.count(0), 100)
        self.assertGreater(told.count(Refusal.NO_ANSWER), 100)

    def test_other_counts(self):
        for n in [0, 1, 2, 3]:
            result, *counts = answer(self.sheet, n)
            for states in range(counts[0] + 3):
                for links in range(counts[1] + 3):
                    for k in range(3):
                        self.told(n, result, (states, links), k)
            longer = (counts[0] + 1, counts[1])
            self.assertEqual(refused(raw.readings, result, n, *longer), Refusal.NO_ANSWER)
            self.assertEqual(self.told(n, result, longer, 0), Refusal.NO_ANSWER)
        # the last three need no more than 20 bytes by a product that wraps at 32 bits
        for counts in [(2**32 - 1, 2**32 - 1), (2**30, 0), (0, 2**30), (2**30, 2**30)]:
            self.assertEqual(refused(raw.readings, result, 3, *counts), Refusal.NO_ANSWER)
            self.assertEqual(self.told(3, result, counts, 0), Refusal.NO_ANSWER)

    def test_short_and_long_results(self):
        for n in [0, 1, 2, 3]:
            result, *counts = answer(self.sheet, n)
            least = len(result) - self.more
            for length in [0, 19, least - 1]:
                self.assertEqual(refused(raw.readings, result[:length], n, *counts), Refusal.NO_ANSWER)
            self.assertEqual(raw.readings(result[:least], n, *counts), min(n, 3))
            for length in [0, 19, len(result) - 1]:
                self.assertEqual(self.told(n, result[:length], counts, 0), Refusal.NO_ANSWER)
            self.assertEqual(raw.readings(result + b"\xff" * 7, n, *counts), min(n, 3))
            for k in range(n):
                self.assertEqual(self.told(n, result + b"\xff" * 7, counts, k), 0)

    def test_numbers_past_the_last_and_other_refusals(self):
        result, *counts = answer(self.sheet, 4)
        self.assertEqual(raw.readings(result, 4, *counts), 3)
        for k in [3, 4, 2**32 - 1]:
            self.assertEqual(self.told(4, result, counts, k), Refusal.ABSENT)
        self.assertEqual(refused(raw.readings, result, 2, *counts), Refusal.NO_ANSWER)
        self.assertEqual(refused(raw.readings, result, LIST_LIMIT + 1, *counts), Refusal.COUNT)
        self.assertEqual(self.told(LIST_LIMIT + 1, b"", counts, 9), Refusal.COUNT)
        broken = raw.reading, bytes(19), 65, b"", *counts, 9, raw.word_area(0)
        self.assertEqual(refused(*broken), Refusal.LAYOUT)

    def test_areas_for_the_numbers(self):
        result, *counts = answer(self.sheet, 3)
        given = (self.sheet.bytes, 3, result, *counts)
        for k, numbers in enumerate([[0, 2], [1, 4], [0, 3, 4]]):
            for longer in [0, 1, 5]:
                run = raw.words([MARK] * (len(numbers) + longer))
                self.assertEqual(raw.reading(*given, k, run).links, len(numbers))
                self.assertEqual(run[:], numbers + [MARK] * longer)
            run = raw.words([MARK] * (len(numbers) - 1))
            self.assertEqual(refused(raw.reading, *given, k, run), Refusal.RESULT)
            self.assertEqual(run[:], [MARK] * (len(numbers) - 1))

    def test_results_of_other_sheets(self):
        r = seeded(7)
        for _ in range(200):
            self.machine = Machine.drawn(r, r.randint(2, 6), r.randrange(9), 3, barred=4)
            self.sheet = self.machine.sheet()
            other = Machine.drawn(r, r.randint(2, 6), r.randrange(9), 3, barred=4).sheet()
            n = r.randint(1, 5)
            result, *counts = answer(other, n)
            for k in range(n):
                self.assertIn(self.told(n, result, counts, k), [0, Refusal.NO_ANSWER, Refusal.ABSENT])


class ListsOfTheLongerTrailer(Lists):
    more = 4

    def setUp(self):
        self.sheet, self.machine = Sheet.read(a_in(256)), MACHINE_A.in_256ths()


class Distances(unittest.TestCase):
    def setUp(self):
        work, self.result = raw.word_area(4 * raw.SLOT), raw.byte_area(32)
        self.assertEqual(raw.shortest_distance(sheet_a().bytes, work, self.result), 4)

    def test_values(self):
        for result in [self.result, self.result.raw, self.result.raw + b"\xff"]:
            self.assertEqual([raw.distance(result, 4, v) for v in range(4)], [0, 64, 32, 80])
        self.assertEqual(raw.distance(self.result, 3, 2), 32)
        self.assertIsNone(raw.distance(bytes(8), 1, 0))

    def test_refusals_in_order(self):
        self.assertEqual(refused(raw.distance, self.result.raw[:31], 4, 0), Refusal.NO_ANSWER)
        self.assertEqual(refused(raw.distance, self.result.raw[:31], 4, 4), Refusal.NO_ANSWER)
        for node in [4, 2**32 - 1]:
            self.assertEqual(refused(raw.distance, self.result, 4, node), Refusal.ABSENT)
        self.assertEqual(refused(raw.distance, self.result, 2**32 - 1, 0), Refusal.NO_ANSWER)
        self.assertEqual(refused(raw.distance, b"", 0, 0), Refusal.ABSENT)

    def test_words_that_are_no_distance(self):
        half_a_unit, infinity, nan = 0x3C000000, 0x7F800000, 0x7FC00000
        for pair in [(0, 1), (2, 0), (1, half_a_unit), (1, infinity), (1, nan), (2**32 - 1, 0)]:
            self.assertEqual(refused(raw.distance, packed(pair), 1, 0), Refusal.NO_ANSWER)
            self.assertEqual(refused(raw.distance_in, packed(pair), 1, 0, 64), Refusal.NO_ANSWER)
        # of the finer unit the same bits are two, and half a unit is another
        self.assertEqual(raw.distance_in(packed((1, half_a_unit)), 1, 0, 256), 2)
        for pair in [(0, 1), (2, 0), (1, 0x3B000000), (1, infinity), (1, nan), (2**32 - 1, 0)]:
            self.assertEqual(refused(raw.distance_in, packed(pair), 1, 0, 256), Refusal.NO_ANSWER)

    def test_units(self):
        for unit in [64, 256]:
            values = [raw.distance_in(self.result, 4, v, unit) for v in range(4)]
            self.assertEqual(values, [0, unit, unit // 2, 5 * unit // 4])
            self.assertIsNone(raw.distance_in(bytes(8), 1, 0, unit))
            self.assertEqual(refused(raw.distance_in, self.result, 4, 4, unit), Refusal.ABSENT)
        # before all else
        for unit in [0, 1, 63, 128, 257, 2**32 - 1]:
            for given in [(self.result, 4, 0), (self.result, 4, 4), (b"", 1, 0)]:
                self.assertEqual(refused(raw.distance_in, *given, unit), Refusal.UNIT)

    def test_the_bits_do_not_depend_on_the_unit(self):
        for unit in [64, 256]:
            result = raw.byte_area(32)
            self.assertEqual(raw.shortest_distance(a_in(unit), raw.word_area(4 * raw.SLOT), result), 4)
            self.assertEqual(result[:], self.result[:])

    def test_each_byte_damaged(self):
        numbers = [refused(raw.distance, changed, 4, 3) for changed in damaged(self.result.raw)]
        self.assertEqual(set(numbers), {0, Refusal.NO_ANSWER})


if __name__ == "__main__":
    unittest.main()
