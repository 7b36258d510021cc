"""The two parts of a sheet: cases by hand, each refusal beside what just passes, and drawn machines against the words
of the request."""
import ctypes
import unittest

from common import A, NONE, Machine, a_with, packed, refused, seeded, sheet_a

from yeldmur import BARRED, LIST_LIMIT, NODE_LIMIT, WEIGHT_LIMIT
from yeldmur import Refusal, Sheet, list_readings, raw, split

BYTE = b"\xa5"

# three links to node 1, two on to node 2
DIAMOND = "0 1 7 7 1\n0 1 8 8 0.5\n0 1 9 9 0.75\n1 2 7 7 0.25\n1 2 8 8 2\n2 0.5\n"


def costs(sheet, n):
    return [reading.cost for reading in list_readings(sheet, n)]


def least_sums(n, low, high):
    return sorted(a + b for a in low for b in high)[:n]


class ByHand(unittest.TestCase):
    def test_the_diamond(self):
        whole = Sheet.from_rows(DIAMOND)
        parts = split(whole, 1)
        links = [(0, 7, 7, 1, 1), (0, 8, 8, 0.5, 1), (0, 9, 9, 0.75, 1)]
        self.assertEqual(parts.first.sheet, Sheet.write(links, [None, 0], 0))
        links = [(0, 7, 7, 0.25, 1), (0, 8, 8, 2, 1)]
        self.assertEqual(parts.second.sheet, Sheet.write(links, [None, 0.5], 0))
        self.assertEqual((list(parts.first.numbers), list(parts.second.numbers)), ([0, 1, 2], [3, 4]))
        self.assertEqual((parts.whole, parts.node), (whole, 1))
        self.assertEqual(costs(whole, 64), [80, 96, 112, 192, 208, 224])
        self.assertEqual(least_sums(64, costs(parts.first.sheet, 64), costs(parts.second.sheet, 64)), costs(whole, 64))

    def test_the_bytes(self):
        result = (ctypes.c_char * 200)(*BYTE * 200)
        self.assertEqual(raw.split(Sheet.from_rows(DIAMOND).bytes, 1, result), (3, 2))
        self.assertEqual([raw.split_size(3, 5, trailer) for trailer in [20, 24]], [188, 196])
        parts = split(Sheet.from_rows(DIAMOND), 1)
        whole = [parts.first.sheet.bytes, packed([0, 1, 2]), parts.second.sheet.bytes, packed([3, 4])]
        self.assertEqual(result[:], b"".join(whole) + BYTE * 12)

    def test_at_the_ends(self):
        a = sheet_a()
        last = split(a, 3)
        self.assertEqual(last.first.sheet, Sheet.write(a.links, [None, None, None, 0], 0))
        self.assertEqual(last.second.sheet, Sheet.write([], [0.5], 0))
        start = split(a, 0)
        self.assertEqual(start.first.sheet, Sheet.write([], [0], 0))
        self.assertEqual((start.second.sheet, start.second.numbers), (a, range(5)))

    def test_c_keeps_its_mark_in_the_second_part_alone(self):
        for weight in [1.5, -128, BARRED]:
            whole = Sheet.write([(0, 7, 7, 1, 1), (1, 8, 8, 2, 2)], [None, weight, 0], 0)
            parts = split(whole, 1)
            self.assertEqual((parts.first.sheet.finals[1], parts.second.sheet.finals[0]), (0, weight))

    def test_joined(self):
        parts = split(Sheet.from_rows(DIAMOND), 1)
        low, high = list_readings(parts.first.sheet, 64), list_readings(parts.second.sheet, 64)
        reading = parts.join(low[2], high[1])
        self.assertEqual((reading.cost, reading.numbers, reading.end), (224, (0, 4), 2))
        self.assertEqual([link.ilabel for link in reading.links], [7, 8])
        for wrong in [(high[0], low[0]), (low[0], low[0])]:
            self.assertRaises(ValueError, parts.join, *wrong)


class Refusals(unittest.TestCase):
    def assert_refused(self, number, sheet, c, room=300):
        """Refused with this number, the result as it was."""
        result = (ctypes.c_char * room)(*BYTE * room)
        self.assertEqual(refused(raw.split, sheet, c, result), number)
        self.assertEqual(result[:], BYTE * room)

    def test_1_to_6_come_first(self):
        large = packed([0] * 3 * (NODE_LIMIT + 1) + [0, 0, NODE_LIMIT + 1, 0, NONE])
        damaged = [bytes(19), a_with(36, 4), a_with(3, 4), a_with(2, 1), large, a_with(3, 0)]
        for number, sheet in enumerate(damaged, 1):
            for c in [0, 1, 3, 4, NONE]:
                self.assert_refused(number, sheet, c)
                self.assert_refused(number, sheet, c, 0)
        self.assertEqual(refused(split, Sheet.read(large), 0), Refusal.LIMITS)

    def test_narrow(self):
        for c, told in [(0, 0), (1, 13), (2, 13), (3, 0), (4, 13), (NONE, 13), (1 << 32, 13)]:
            self.assertEqual(refused(split, sheet_a(), c), told)
        self.assert_refused(Refusal.NARROW, packed(A), 1, 0)
        self.assertEqual(refused(split, Sheet.read(a_with(36, NONE)), 3), Refusal.NARROW)
        self.assertEqual(refused(split, Sheet.write([], [], None), 0), Refusal.NARROW)
        for rows, c, told in [
            ("1 2 7 7\n2\n", 1, 0),
            ("2 3 7 7\n3\n", 1, 13),
            ("0 1 7 7\n1 2 8 8\n1\n2\n", 1, 0),
            ("0 1 7 7\n0\n1 2 8 8\n2\n", 1, 13),
            ("0 2 7 7\n1\n2\n", 2, 13),
            ("0 1 7 7\n0 Infinity\n1\n", 1, 13),
            ("0 1 7 7\n0 1 7 7\n1 2 7 7\n1 3 7 7\n3\n", 1, 0),
            ("0 1 7 7\n0 2 7 7 Infinity\n2\n", 1, 13),
            ("0 2 7 7\n1 3 7 7\n3\n", 2, 13),
        ]:
            self.assertEqual(refused(split, Sheet.from_rows(rows), c), told, rows)

    def test_results_of_every_length(self):
        whole = raw.byte_area(200)
        raw.split(packed(A), 3, whole)
        for room in range(204):
            if room < 200:
                self.assert_refused(Refusal.RESULT, packed(A), 3, room)
                continue
            result = (ctypes.c_char * room)(*BYTE * room)
            self.assertEqual(raw.split(packed(A), 3, result), (5, 0))
            self.assertEqual(result[:], whole[:] + BYTE * (room - 200))

    def test_what_is_no_node(self):
        self.assertRaises(ctypes.ArgumentError, split, sheet_a(), -1)
        self.assertRaises(ctypes.ArgumentError, raw.split, packed(A), 1 << 32, raw.byte_area(200))


def judged(machine, c):
    """The two parts apart from the library, or None where the machine does not narrow to c."""
    if c >= len(machine.finals) or machine.start > c:
        return None
    if any(last is not None for last in machine.finals[:c]):
        return None
    if any(link[0] < c < link[3] for link in machine.links):
        return None
    low = [link for link in machine.links if link[0] < c]
    high = [(s - c, label, units, following - c) for s, label, units, following in machine.links if s >= c]
    first = Machine(low, machine.finals[:c] + [0], machine.start, machine.unit)
    return first, Machine(high, machine.finals[c:], 0, machine.unit)


class Drawn(unittest.TestCase):
    def drawn(self, r, c, spread):
        """A machine that mostly narrows to c."""
        machine = Machine.drawn(r, r.randint(c + 2, c + 5), r.randrange(14), spread, barred=r.choice([0, 4]))
        if r.randrange(6):
            cut = [(s, l, u, min(f, c) if s < c else f) for s, l, u, f in machine.links]
            machine = Machine(cut, [None] * c + machine.finals[c:], min(machine.start, c), machine.unit)
        return machine

    def test_drawn_machines(self):
        r, parted, wide = seeded(11), 0, 0
        for turn in range(600):
            c = r.randrange(5)
            machine = self.drawn(r, c, [1, 8, 4096, WEIGHT_LIMIT][turn % 4])
            due = judged(machine, c)
            if due is None:
                wide += 1
                self.assertEqual(refused(split, machine.sheet(), c), Refusal.NARROW)
                continue
            parted += 1
            parts = split(machine.sheet(), c)
            self.assertEqual((parts.first.sheet, parts.second.sheet), (due[0].sheet(), due[1].sheet()))
            self.sums(parts, range(1, LIST_LIMIT + 1) if turn % 10 == 0 else [1, 2, 3, 64])
            self.joined(machine, parts)
        self.assertGreater(parted, 300)
        self.assertGreater(wide, 50)

    def sums(self, parts, counts):
        for n in counts:
            low, high = costs(parts.first.sheet, n), costs(parts.second.sheet, n)
            self.assertEqual(costs(parts.whole, n), least_sums(n, low, high))

    def joined(self, machine, parts):
        """Readings of the parts join to those of the whole, each once, where no list leaves one out."""
        low, high = list_readings(parts.first.sheet, 64), list_readings(parts.second.sheet, 64)
        if len(low) * len(high) < LIST_LIMIT:
            made = [parts.join(one, other) for one in low for other in high]
            told = sorted((reading.cost, reading.numbers, reading.end) for reading in made)
            self.assertEqual(told, sorted(machine.readings()))


if __name__ == "__main__":
    unittest.main()
