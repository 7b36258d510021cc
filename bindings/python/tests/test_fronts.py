"""The fronts of lists beside the lists for their counts: cases by hand, and drawn machines against an enumeration of
all their readings."""
import unittest
from collections import Counter
from dataclasses import FrozenInstanceError
from itertools import groupby

from common import Machine, found, seeded, sheet_a

from yeldmur import BARRED, LIST_LIMIT, WEIGHT_LIMIT, Areas, Front, Sheet, best, list_readings


def beside(*weights):
    """One link for each weight, from node 0 to node 1."""
    return Sheet.write([(0, 1, 1, weight, 1) for weight in weights], [None, 0], 0)


def runs(readings):
    """Cost and link numbers of each reading."""
    return [(reading.cost, reading.numbers) for reading in readings]


class ByHand(unittest.TestCase):
    def doubts(self, sheet, n):
        """The counts up to the list's n for which the list may hold other readings than the front; none beyond has a
        front."""
        listed = list_readings(sheet, n)
        self.assertEqual(listed.n, n)
        for count in [-1, -(2**80), n + 1, n + 2, LIST_LIMIT + 1, 2**80]:
            with self.assertRaisesRegex(ValueError, f"^a list for {n} has fronts of 0 to {n}, not of {count}$"):
                listed.front(count)
        return [count for count in range(n + 1) if listed.front(count).may_differ]

    def front(self, sheet, n, count):
        return runs(list_readings(sheet, n).front(count))

    def list(self, sheet, n):
        return found(sheet, n, Areas())

    def test_sheet_a(self):
        a = sheet_a()
        for n, doubts in [(0, []), (1, []), (2, [1]), (3, [1]), (5, [1])]:
            self.assertEqual(self.doubts(a, n), doubts)
            for count in range(n + 1):
                # here ties leave no difference
                self.assertEqual(self.front(a, n, count), self.list(a, count))

    def test_eighty_eight_bytes(self):
        """A line of three nodes, each final, and all weights 0."""
        sheet = Sheet.from_rows("0 1 1 1\n1 2 2 2\n0\n1\n2\n")
        self.assertEqual(len(sheet.bytes), 88)
        self.assertEqual(runs([best(sheet)]), [(0, ())])
        self.assertEqual(self.list(sheet, 2), [(0, (0,)), (0, ())])
        self.assertEqual(self.front(sheet, 2, 1), [(0, (0,))])
        for n, doubts in [(1, []), (2, [1]), (4, [1, 2])]:
            self.assertEqual(self.doubts(sheet, n), doubts)

    def test_ties(self):
        links = [(source, label, label, 0, source + 1) for source, label in [(0, 1), (0, 2), (1, 3), (1, 4), (1, 5)]]
        sheet = Sheet.write(links, [None, None, 0], 0)
        self.assertEqual(self.list(sheet, 1), [(0, (0, 2))])
        self.assertEqual(self.front(sheet, 2, 1), [(0, (1, 2))])
        self.assertEqual(self.front(sheet, 2, 2), [(0, (1, 2)), (0, (0, 3))])
        self.assertEqual(self.doubts(sheet, 7), [1, 2, 3, 4, 5])

    def test_where_the_tie_stands(self):
        """The cost behind the front counts, and none before its last or behind that; nor does what costs as much behind
        the list's n."""
        cases = [((0, 1, 2, 3), []), ((0, 1, 2, 2), [3]), ((0, 1, 1, 2), [2]), ((1, 1, 2, 3), [1]), ((1, 1, 1, 3), [1, 2])]
        for weights, doubts in cases:
            for n in range(5):
                self.assertEqual(self.doubts(beside(*weights), n), [count for count in doubts if count < n])

    def test_a_negative_best(self):
        sheet = Sheet.write([(0, 1, 1, -2, 1), (0, 2, 2, 1, 1)], [0, 0], 0)
        every = [(-128, (0,)), (0, ()), (64, (1,))]
        for count in range(4):
            self.assertEqual(self.front(sheet, LIST_LIMIT, count), every[:count])
            self.assertEqual(self.list(sheet, count), every[:count])
        self.assertEqual(self.doubts(sheet, LIST_LIMIT), [])

    def test_a_barred_reading_that_would_come_second(self):
        for second, doubts in [(0.5, [1]), (0.75, []), (BARRED, [])]:
            self.assertEqual(self.doubts(beside(0.5, second, 1), 5), doubts)
        self.assertEqual(self.list(beside(0.5, 0.75, 1), 2)[1], (48, (1,)))
        barred = beside(0.5, BARRED, 1)
        self.assertEqual(self.front(barred, 3, 2), [(32, (0,)), (64, (2,))])
        self.assertEqual(self.front(barred, 3, 2), self.list(barred, 2))

    def test_empty_lists(self):
        no_start, no_final = Sheet.write([], [0], None), Sheet.write([(0, 1, 1, 0, 1)], [None, None], 0)
        for sheet in [no_start, no_final, beside(BARRED, BARRED)]:
            self.assertIsNone(best(sheet))
            for n in [0, 1, 2, LIST_LIMIT]:
                self.assertEqual(self.doubts(sheet, n), [])
                fronts = [list_readings(sheet, n).front(count) for count in range(n + 1)]
                self.assertEqual(fronts, [Front(count, (), False) for count in range(n + 1)])

    def test_a_front_by_place(self):
        listed = list_readings(sheet_a(), 3)
        two = listed.front(2)
        self.assertEqual((two.n, len(two), list(two)), (2, 2, [listed[0], listed[1]]))
        self.assertEqual((two[1], two[-1], two[:1]), (listed[1], listed[1], listed.readings[:1]))
        self.assertRaises(IndexError, lambda: two[2])
        self.assertRaises(TypeError, listed.front, 1.5)
        with self.assertRaises(FrozenInstanceError):
            two.n = 3
        self.assertEqual(Areas().list_readings(sheet_a(), 3).front(2), two)


class Drawn(unittest.TestCase):
    """Every front of the lists for all n, of each the list for its count."""

    def setUp(self):
        # by what is seen of the fronts that have a reading and are no whole list, how many there are
        self.seen, self.areas = Counter(), Areas()

    def check(self, machine):
        sheet, every = machine.sheet(), sorted(machine.readings())
        self.costs = [cost for cost, _, _ in every]
        alike = [list(group) for _, group in groupby(every, key=lambda reading: reading[0])]
        # the readings that cost what no other does, by their costs
        self.own = {group[0][0]: group[0] for group in alike if len(group) == 1}
        self.lists = [self.areas.list_readings(sheet, n) for n in range(LIST_LIMIT + 1)]
        for listed in self.lists:
            self.check_list(listed)
            for count in range(listed.n + 1):
                self.check_front(listed, listed.front(count), self.lists[count])
            self.assertRaises(ValueError, listed.front, listed.n + 1)
        head = getattr(self.areas.best(sheet), "cost", None)
        heads = [next((reading.cost for reading in listed), None) for listed in self.lists[1:]]
        self.assertEqual(heads, [head] * LIST_LIMIT)

    def own_on(self, readings):
        return [reading for reading in readings if reading.cost in self.own]

    def check_list(self, listed):
        self.assertEqual([reading.cost for reading in listed], self.costs[: listed.n])
        for reading in self.own_on(listed):
            self.assertEqual((reading.cost, reading.numbers, reading.end), self.own[reading.cost])

    def check_front(self, long, front, short):
        count, within = short.n, short.n < long.n
        self.assertEqual((front.n, front.readings), (count, long.readings[:count]))
        self.assertEqual([reading.cost for reading in front], [reading.cost for reading in short])
        self.assertEqual(self.own_on(front), self.own_on(short))
        last = self.costs[count - 1 : count]
        self.assertEqual(front.may_differ, within and last != [] and last == self.costs[count : count + 1])
        # of each lower cost, and where it is certain of the last too, the same readings
        same = [{r for r in readings if not front.may_differ or [r.cost] < last} for readings in (front, short)]
        self.assertEqual(*same)
        if within and len(front):
            self.seen[self.doubt(front, short)] += 1
            self.seen["own"] += front.may_differ and self.own_on(front) != []

    def doubt(self, front, short):
        if not front.may_differ:
            return "certain"
        if front.readings == short.readings:
            return "alike"
        return "reordered" if set(front) == set(short) else "others"

    def test_small_machines(self):
        r = seeded(21)
        for turn in range(160):
            spread, barred = [0, 1, 3, WEIGHT_LIMIT][turn % 4], turn // 4 % 2 * 4
            self.check(Machine.drawn(r, r.randint(2, 7), r.randrange(30), spread, barred))
        for seen in ["certain", "alike", "others", "own"]:
            self.assertGreater(self.seen[seen], 1000, self.seen)
        self.assertGreater(self.seen["reordered"], 20, self.seen)

    def test_machines_with_many_readings(self):
        r = seeded(22)
        for turn in range(8):
            machine = Machine.drawn(r, 12, 60, [0, 1, 8, WEIGHT_LIMIT][turn % 4], turn // 4 * 4)
            machine.start, machine.finals[-1] = 0, 0
            self.check(machine)
            self.assertGreater(len(self.costs), LIST_LIMIT)
        for seen in ["certain", "others"]:
            self.assertGreater(self.seen[seen], 1000, self.seen)


if __name__ == "__main__":
    unittest.main()
