"""Drawn machines against an enumeration of all their readings."""
import unittest
from concurrent.futures import ThreadPoolExecutor

from common import Machine, found, seeded

from yeldmur import LIST_LIMIT, WEIGHT_LIMIT, Areas, distances


class Drawn(unittest.TestCase):
    def check(self, machine, ns, areas):
        sheet, readings = machine.sheet(), set(machine.readings())
        self.assertEqual(areas.distances(sheet), machine.distances())
        costs = sorted(cost for cost, _, _ in readings)
        for n in ns:
            listed = [(r.cost, r.numbers, r.end) for r in areas.list_readings(sheet, n)]
            self.assertEqual([cost for cost, _, _ in listed], costs[:n])
            self.assertEqual(len(set(listed)), len(listed))
            self.assertLessEqual(set(listed), readings)
            if n >= len(readings):
                self.assertEqual(set(listed), readings)

    def test_small_machines(self):
        r, areas = seeded(2), Areas()
        for turn in range(600):
            spread = [1, 3, WEIGHT_LIMIT][turn % 3]
            machine = Machine.drawn(r, r.randint(2, 7), r.randrange(20), spread)
            self.check(machine, [0, 1, 2, 3, 5, 8, LIST_LIMIT], areas)

    def test_machines_with_barred_links(self):
        r, areas = seeded(8), Areas()
        for turn in range(600):
            spread = [1, 3, WEIGHT_LIMIT][turn % 3]
            machine = Machine.drawn(r, r.randint(2, 7), r.randrange(20), spread, barred=4)
            self.check(machine, [0, 1, 2, 3, 5, 8, LIST_LIMIT], areas)

    def test_machines_with_many_readings(self):
        r, areas = seeded(3), Areas()
        for spread in [1, 8, WEIGHT_LIMIT]:
            for _ in range(4):
                machine = Machine.drawn(r, 12, 50, spread)
                machine.start = 0
                self.check(machine, [1, 2, 7, LIST_LIMIT - 1, LIST_LIMIT], areas)

    def test_links_and_labels_of_readings(self):
        r, areas = seeded(4), Areas()
        for _ in range(100):
            machine = Machine.drawn(r, 6, 12, 3)
            for reading in areas.list_readings(machine.sheet(), 10):
                expected = [machine.links[number] for number in reading.numbers]
                fields = [(l.source, l.ilabel, l.units(reading.unit), l.next) for l in reading.links]
                self.assertEqual(fields, expected)

    def test_a_large_machine(self):
        r, areas = seeded(5), Areas()
        machine = Machine.drawn(r, 1000, 6000, 64)
        machine.start = 0
        sheet = machine.sheet()
        longest = areas.list_readings(sheet, LIST_LIMIT)
        costs = [reading.cost for reading in longest]
        totals = zip(distances(sheet), machine.finals)
        self.assertEqual(costs[0], min(d + f for d, f in totals if d is not None and f is not None))
        self.assertEqual(costs, sorted(costs))
        for reading in longest:
            self.assertEqual((reading.cost, reading.end), machine.cost_and_end(reading.numbers))
        for n in [1, 2, 17, 63]:
            self.assertEqual([cost for cost, _ in found(sheet, n, areas)], costs[:n])


class Threads(unittest.TestCase):
    def test_calls_at_the_same_time(self):
        r = seeded(6)
        sheets = [Machine.drawn(r, 200, 1500, 20).sheet() for _ in range(8)]
        one_by_one = [found(sheet, 20, Areas()) for sheet in sheets]
        with ThreadPoolExecutor(4) as pool:
            together = list(pool.map(lambda sheet: found(sheet, 20, Areas()), sheets * 4))
        self.assertEqual(together, one_by_one * 4)


if __name__ == "__main__":
    unittest.main()
