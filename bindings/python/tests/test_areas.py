"""The raw calls in areas of lengths near the one needed, and areas that are kept."""
import ctypes
import unittest

from common import A, A_ROWS, Machine, a_in, packed, refused, seeded, sheet_a

from yeldmur import LINK_LIMIT, LIST_LIMIT, NODE_LIMIT, Areas, Refusal, Sheet, list_readings, raw

WORD, BYTE = 0xDEADBEEF, b"\xa5"


def work_area(size):
    return raw.words([WORD] * size)


def result_area(size):
    return (ctypes.c_char * size)(*BYTE * size)


class ShortAreas(unittest.TestCase):
    def assert_cleared(self, work, slots):
        needed = raw.SLOT * slots
        self.assertEqual(work[:], [0] * needed + [WORD] * (len(work) - needed))

    def test_lists(self):
        for n, slots in [(0, 0), (1, 4), (2, 25), (3, 31), (LIST_LIMIT, 397)]:
            for a, trailer in [(packed(A), 20), (a_in(64), 24), (a_in(256), 24)]:
                self.of_every_length(a, n, slots, trailer)

    def of_every_length(self, a, n, slots, trailer):
        needed = raw.areas(a, n)
        self.assertEqual(needed.slots, slots)
        work, result = work_area(8 * slots + 13), result_area(needed.bytes + 3)
        listed = raw.shortest_path(a, n, work, result)
        length = raw.sheet_size(listed.states, listed.links, trailer) + 4 * listed.links
        self.assert_cleared(work, slots)
        self.assertEqual(result[length:], BYTE * (len(result) - length))
        self.short_result(a, n, slots, length)
        if slots:
            self.short_work(a, n, slots, length)

    def short_result(self, a, n, slots, length):
        for short in [0, 19, length - 1]:
            work, result = work_area(8 * slots + 5), result_area(short)
            self.assertEqual(refused(raw.shortest_path, a, n, work, result), Refusal.RESULT)
            self.assertEqual(result[:], BYTE * short)
            self.assert_cleared(work, slots)

    def short_work(self, a, n, slots, length):
        work, result = work_area(8 * slots - 1), result_area(length)
        self.assertEqual(refused(raw.shortest_path, a, n, work, result), Refusal.WORK)
        self.assertEqual((work[:], result[:]), ([WORD] * len(work), BYTE * length))

    def test_distances(self):
        a = packed(A)
        self.assertEqual(refused(raw.shortest_distance, a, work_area(31), result_area(32)), Refusal.WORK)
        self.assertEqual(refused(raw.shortest_distance, a, work_area(32), result_area(31)), Refusal.RESULT)
        self.assertEqual(raw.shortest_distance(a, work_area(32), result_area(32)), 4)

    def test_sheets_and_rows(self):
        text, a = A_ROWS.encode(), packed(A)
        self.assertEqual(raw.rows_sheet_bytes(text), 148)
        self.assertEqual(refused(raw.rows_to_sheet, text, result_area(147)), Refusal.RESULT)
        result = result_area(150)
        self.assertEqual(raw.rows_to_sheet(text, result), 148)
        self.assertEqual(result[:], a + 2 * BYTE)
        self.assertEqual(raw.sheet_rows_bytes(a), len(text))
        self.assertEqual(refused(raw.sheet_to_rows, a, result_area(len(text) - 1)), Refusal.RESULT)
        links, nodes = raw.words(A[:20]), raw.words(A[20:32])
        self.assertEqual(refused(raw.write_sheet, links, nodes, 0, result_area(147)), Refusal.RESULT)
        self.assertEqual(raw.write_sheet(links, nodes, 0, result), 148)
        for unit in [64, 256]:
            self.assertEqual(refused(raw.write_sheet_in, links, nodes, 0, unit, result_area(151)), Refusal.RESULT)
            result = result_area(153)
            self.assertEqual(raw.write_sheet_in(links, nodes, 0, unit, result), 152)
            self.assertEqual(result[:], a_in(unit) + BYTE)

    def test_areas_of_counts(self):
        of_counts = raw.areas_of(4, 5, 1, 2)
        self.assertEqual(of_counts, raw.areas(a_in(64), 2))
        self.assertEqual(of_counts, raw.areas(a_in(256), 2))
        # enough for either trailer
        self.assertEqual((of_counts.slots, of_counts.bytes - 4), raw.areas(packed(A), 2))
        most = raw.areas_of(NODE_LIMIT, LINK_LIMIT, NODE_LIMIT, LIST_LIMIT)
        self.assertEqual(most.slots, 2048 + 16384 + 2 * 2048 + 2 + 64 * 16385)
        self.assertEqual(refused(raw.areas_of, NODE_LIMIT + 1, 0, 0, 65), Refusal.LIMITS)
        self.assertEqual(refused(raw.areas_of, 0, 0, 0, 65), Refusal.COUNT)


class Pointers(unittest.TestCase):
    def test_areas_without_elements_have_an_address(self):
        for area in [raw.byte_area(0), raw.word_area(0), raw.words([])]:
            self.assertEqual(len(area), 0)
            self.assertNotEqual(ctypes.addressof(area), 0)
            self.assertEqual(ctypes.addressof(area) % 4, 0)

    def test_empty_bytes(self):
        self.assertEqual(refused(raw.read_sheet, b""), Refusal.LAYOUT)
        self.assertEqual(refused(raw.rows_sheet_bytes, b""), Refusal.ROWS)
        self.assertEqual(refused(raw.read_sheet, raw.byte_area(0)), Refusal.LAYOUT)

    def test_what_is_no_area_and_no_number(self):
        for wrong in [None, 148, "0\n", [0]]:
            self.assertRaises((TypeError, ctypes.ArgumentError), raw.read_sheet, wrong)
        a = packed(A)
        for wrong in [-1, 2**32, 1.5, None]:
            self.assertRaises((TypeError, ctypes.ArgumentError), raw.areas, a, wrong)
            self.assertRaises((TypeError, ctypes.ArgumentError), raw.link, a, wrong)
        for wrong in [bytes(99), bytearray(99), raw.word_area(99), (ctypes.c_uint8 * 99)()]:
            self.assertRaises(ctypes.ArgumentError, raw.rows_to_sheet, b"0\n", wrong)
        self.assertRaises(ctypes.ArgumentError, raw.shortest_distance, a, raw.byte_area(99), raw.byte_area(99))

    def test_a_negative_n(self):
        self.assertRaises(ctypes.ArgumentError, list_readings, sheet_a(), -1)


class Kept(unittest.TestCase):
    def test_what_a_call_leaves_does_not_touch_the_next(self):
        r, kept = seeded(8), Areas()
        for _ in range(200):
            sheet = Machine.drawn(r, r.randint(2, 12), r.randrange(30), 5).sheet()
            n = r.randrange(LIST_LIMIT + 1)
            self.assertEqual(kept.list_readings(sheet, n), Areas().list_readings(sheet, n))
            self.assertEqual(kept.distances(sheet), Areas().distances(sheet))

    def test_a_list_outlives_its_areas(self):
        kept = Areas()
        listed = kept.list_readings(sheet_a(), 3)
        before = list(listed)
        kept.list_readings(Sheet.from_rows("0 1 9 9 7\n1\n"), 3)
        self.assertEqual(list(listed), before)
        self.assertEqual(listed[2].links[1].ilabel, 5)

    def test_a_refused_sheet_leaves_them_usable(self):
        kept = Areas()
        self.assertEqual(refused(kept.list_readings, sheet_a(), 65), Refusal.COUNT)
        self.assertEqual(kept.best(sheet_a()).cost, 112)


if __name__ == "__main__":
    unittest.main()
