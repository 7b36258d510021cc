//! The fronts of lists beside the lists for their counts: cases by hand, and drawn machines against an enumeration of all their readings.
#![forbid(unsafe_code)]

mod common;

use std::collections::HashMap;

use common::drawn::{weighed, Machine};
use common::{costs, link, numbered, readings, sheet_a, Random};
use yeldmur::{list, Areas, Front, Reading, Sheet, Unit, BARRED, LIST_LIMIT, WEIGHT_LIMIT};

// A reading's cost and the numbers of its links.
type Run = (i32, Vec<u32>);

// One link for each weight, from node 0 to node 1.
fn beside(weights: &[f32]) -> Sheet {
    let links: Vec<_> = weights.iter().map(|&w| link(0, 1, w, 1)).collect();
    Sheet::write(&links, &[None, Some(0.0)], Some(0)).unwrap()
}

fn front(sheet: &Sheet, n: u32, count: u32) -> Vec<Run> {
    numbered(list(sheet, n).unwrap().front(count).unwrap().readings())
}

// The counts up to the list's n for which the list may hold other readings than the front; none above it has a front.
fn in_doubt(sheet: &Sheet, n: u32) -> Vec<u32> {
    let list = list(sheet, n).unwrap();
    assert_eq!(list.n(), n);
    for count in [n + 1, n + 2, LIST_LIMIT + 1, u32::MAX] {
        assert!(list.front(count).is_none());
    }
    let fronts = (0..=n).map(|count| list.front(count).unwrap());
    fronts.filter(Front::may_differ).map(|f| f.n()).collect()
}

#[test]
fn sheet_a_for_every_count() {
    let a = sheet_a();
    assert_eq!(costs(&a, 3), [112, 112, 144]);
    for (n, due) in [(0, &[][..]), (1, &[]), (2, &[1]), (3, &[1]), (5, &[1])] {
        assert_eq!(in_doubt(&a, n), due);
        for count in 0..=n {
            // here ties leave no difference
            assert_eq!(front(&a, n, count), readings(&a, count));
        }
    }
}

// A line of three nodes, each final, and all weights 0.
#[test]
fn eighty_eight_bytes() {
    let sheet: Sheet = "0 1 1 1\n1 2 2 2\n0\n1\n2\n".parse().unwrap();
    assert_eq!(sheet.bytes().len(), 88);
    assert_eq!(readings(&sheet, 1), [(0, vec![])]);
    assert_eq!(readings(&sheet, 2), [(0, vec![0]), (0, vec![])]);
    assert_eq!(front(&sheet, 2, 1), [(0, vec![0])]);
    assert_eq!(in_doubt(&sheet, 1), []);
    assert_eq!(in_doubt(&sheet, 2), [1]);
    assert_eq!(in_doubt(&sheet, 4), [1, 2]);
}

#[test]
fn ties() {
    let links = [(0, 1), (0, 2), (1, 3), (1, 4), (1, 5)];
    let links = links.map(|(source, label)| link(source, label, 0.0, source + 1));
    let sheet = Sheet::write(&links, &[None, None, Some(0.0)], Some(0)).unwrap();
    assert_eq!(readings(&sheet, 1), [(0, vec![0, 2])]);
    assert_eq!(front(&sheet, 2, 1), [(0, vec![1, 2])]);
    assert_eq!(front(&sheet, 2, 2), [(0, vec![1, 2]), (0, vec![0, 3])]);
    assert_eq!(in_doubt(&sheet, 7), [1, 2, 3, 4, 5]);
}

// The cost behind the front counts, and none before its last or behind that; nor does what costs as much behind the list's n.
#[test]
fn where_the_tie_stands() {
    for (weights, due) in [
        ([0.0, 1.0, 2.0, 3.0], &[][..]),
        ([0.0, 1.0, 2.0, 2.0], &[3]),
        ([0.0, 1.0, 1.0, 2.0], &[2]),
        ([1.0, 1.0, 2.0, 3.0], &[1]),
        ([1.0, 1.0, 1.0, 3.0], &[1, 2]),
    ] {
        let sheet = beside(&weights);
        for n in 0..=4 {
            let below: Vec<u32> = due.iter().copied().filter(|count| *count < n).collect();
            assert_eq!(in_doubt(&sheet, n), below);
        }
    }
}

#[test]
fn a_negative_best() {
    let links = [link(0, 1, -2.0, 1), link(0, 2, 1.0, 1)];
    let sheet = Sheet::write(&links, &[Some(0.0), Some(0.0)], Some(0)).unwrap();
    let all = [(-128, vec![0]), (0, vec![]), (64, vec![1])];
    for count in 0..=3 {
        let due = &all[..count as usize];
        assert_eq!(front(&sheet, 64, count), due);
        assert_eq!(readings(&sheet, count), due);
    }
    assert_eq!(in_doubt(&sheet, 64), []);
}

#[test]
fn a_barred_reading_that_would_come_second() {
    for (second, due) in [(0.5, &[1][..]), (0.75, &[])] {
        assert_eq!(in_doubt(&beside(&[0.5, second, 1.0]), 5), due);
    }
    assert_eq!(readings(&beside(&[0.5, 0.75, 1.0]), 2)[1], (48, vec![1]));
    let barred = beside(&[0.5, BARRED, 1.0]);
    assert_eq!(front(&barred, 3, 2), [(32, vec![0]), (64, vec![2])]);
    assert_eq!(readings(&barred, 2), front(&barred, 3, 2));
    assert_eq!(in_doubt(&barred, 5), []);
}

#[test]
fn empty_lists() {
    let sheets = [
        Sheet::write(&[], &[Some(0.0)], None).unwrap(),
        Sheet::write(&[link(0, 1, 0.0, 1)], &[None, None], Some(0)).unwrap(),
        beside(&[BARRED, BARRED]),
    ];
    for (sheet, n) in sheets.iter().flat_map(|s| [0, 1, 2, 64].map(|n| (s, n))) {
        assert_eq!(in_doubt(sheet, n), []);
        let list = list(sheet, n).unwrap();
        for front in (0..=n).map(|count| list.front(count).unwrap()) {
            assert!(front.is_empty() && front.reading(0).is_none());
            assert_eq!((front.len(), front.readings().len()), (0, 0));
        }
    }
}

#[test]
fn a_front_by_place() {
    let a = sheet_a();
    let mut areas = Areas::new();
    let list = areas.list(&a, 3).unwrap();
    assert_eq!(list.n(), 3);
    let two = list.front(2).unwrap();
    assert_eq!((two.n(), two.len(), two.is_empty()), (2, 2, false));
    // they are of the list, and outlive the front
    let readings: Vec<Reading> = { two }.readings().rev().collect();
    assert_eq!(
        numbered(readings.into_iter()),
        [(112, vec![1, 4]), (112, vec![0, 2])]
    );
    assert_eq!(two.reading(1).unwrap().end(), 3);
    assert!(two.reading(2).is_none() && list.reading(2).is_some());
    assert_eq!(
        format!("{:?}", list.front(1).unwrap()),
        "Front { n: 1, may_differ: true, readings: [Reading { cost: 112, numbers: [0, 2], end: 3 }] }"
    );
}

// What is known of a machine's readings apart from the library.
struct All {
    // least first
    costs: Vec<i32>,
    // the readings that cost what no other does, by their costs
    own: HashMap<i32, Vec<u32>>,
}

impl All {
    fn of(machine: &Machine) -> All {
        let mut readings = machine.readings();
        readings.sort();
        let alike = readings.chunk_by(|one, other| one.0 == other.0);
        let own = alike.filter(|runs| runs.len() == 1);
        All {
            costs: readings.iter().map(|run| run.0).collect(),
            own: own.map(|runs| runs[0].clone()).collect(),
        }
    }

    fn first(&self, count: u32) -> &[i32] {
        &self.costs[..self.costs.len().min(count as usize)]
    }

    fn own_on<'a>(&'a self, listed: &'a [Run]) -> impl Iterator<Item = &'a Run> {
        listed.iter().filter(|run| self.own.contains_key(&run.0))
    }

    fn check_list(&self, n: u32, listed: &[Run]) {
        assert!(costs_of(listed).eq(self.first(n)));
        for (cost, numbers) in self.own_on(listed) {
            assert_eq!(numbers, &self.own[cost]);
        }
    }

    // A front, as many readings of its list, and the list for the front's count, whether it is a shorter one or the same.
    fn check_front(&self, front: Front, long: &[Run], short: &[Run], shorter: bool) {
        let mut places = front.readings().zip(long);
        assert_eq!(front.len(), long.len());
        assert!(places.all(|(reading, run)| is_run(reading, run)));
        assert!(costs_of(long).eq(costs_of(short)));
        assert!(self.own_on(long).eq(self.own_on(short)));
        let last = long.last().map(|run| run.0);
        let tied = last.is_some() && self.costs.get(front.n() as usize).copied() == last;
        assert_eq!(front.may_differ(), shorter && tied);
        // of each lower cost, and where it is certain of the last too, the same readings
        let same = |run: &Run| !front.may_differ() || Some(run.0) < last;
        assert_eq!(sorted(long, same), sorted(short, same));
    }
}

fn costs_of(runs: &[Run]) -> impl Iterator<Item = &i32> {
    runs.iter().map(|run| &run.0)
}

fn sorted(runs: &[Run], kept: impl Fn(&Run) -> bool) -> Vec<&Run> {
    let mut runs: Vec<&Run> = runs.iter().filter(|run| kept(run)).collect();
    runs.sort();
    runs
}

fn is_run(reading: Reading, (cost, numbers): &Run) -> bool {
    reading.cost() == *cost && reading.numbers().eq(numbers.iter().copied())
}

// How many fronts there were that have a reading and are no whole list.
#[derive(Debug, Default)]
struct Seen {
    certain: u32,
    // in doubt, and the list for the count has the same readings, the same in another order, or others
    alike: u32,
    reordered: u32,
    others: u32,
    // in doubt, with a reading that costs what no other does
    own: u32,
}

impl Seen {
    fn note(&mut self, may_differ: bool, long: &[Run], short: &[Run]) {
        let kind = match may_differ {
            false => &mut self.certain,
            true if long == short => &mut self.alike,
            true if long.iter().all(|run| short.contains(run)) => &mut self.reordered,
            true => &mut self.others,
        };
        *kind += 1;
    }
}

// Every front of the lists for all n, of each the list for its count.
fn check(machine: &Machine, areas: &mut Areas, seen: &mut Seen) {
    let (sheet, all) = (machine.sheet(), All::of(machine));
    let mut lists: Vec<Vec<Run>> = vec![];
    for n in 0..=LIST_LIMIT {
        let list = areas.list(&sheet, n).unwrap();
        lists.push(numbered(list.readings()));
        all.check_list(n, &lists[n as usize]);
        assert!(list.front(n + 1).is_none());
        for count in 0..=n {
            let front = list.front(count).unwrap();
            assert_eq!(front.n(), count);
            let (short, long) = (&lists[count as usize], &lists[n as usize]);
            let long = &long[..all.first(count).len()];
            all.check_front(front, long, short, count < n);
            if count < n && !front.is_empty() {
                seen.note(front.may_differ(), long, short);
                seen.own += u32::from(front.may_differ() && all.own_on(long).next().is_some());
            }
        }
    }
    let mut heads = lists.iter().map(|listed| listed.first().map(|run| run.0));
    assert_eq!(heads.next(), Some(None));
    assert!(heads.all(|head| head == all.costs.first().copied()));
}

// Few different weights make ties, many make hardly any; with a spread of 0 all readings cost the same. The trailer is drawn.
fn drawn(random: &mut Random, nodes: u32, links: u32, spread: u32, barred: bool) -> Machine {
    let said = random.said();
    let unit = said.unwrap_or(Unit::Of64);
    let mut machine = match barred {
        false => weighed(random, nodes, links, |r| r.weight_in(spread, unit)),
        true => weighed(random, nodes, links, |r| {
            r.weight_or_barred_in(spread, unit)
        }),
    };
    machine.said = said;
    machine
}

const SPREADS: [u32; 4] = [0, 1, 3, WEIGHT_LIMIT as u32];

#[test]
fn drawn_machines() {
    let (mut random, mut areas, mut seen) = (Random(31), Areas::new(), Seen::default());
    for round in 0..800 {
        let (nodes, links) = (2 + random.below(6), random.below(30));
        let barred = round / 4 % 2 == 1;
        let machine = drawn(&mut random, nodes, links, SPREADS[round % 4], barred);
        check(&machine, &mut areas, &mut seen);
    }
    assert!(seen.certain > 10_000 && seen.alike > 10_000, "{seen:?}");
    assert!(seen.reordered > 100 && seen.others > 10_000, "{seen:?}");
    assert!(seen.own > 10_000, "{seen:?}");
}

#[test]
fn machines_with_many_readings() {
    let (mut random, mut areas, mut seen) = (Random(34), Areas::new(), Seen::default());
    for round in 0..24 {
        let barred = round / 4 % 2 == 1;
        let mut machine = drawn(&mut random, 14, 75, SPREADS[round % 4], barred);
        (machine.start, machine.finals[13]) = (0, Some(0.0));
        assert!(machine.readings().len() > LIST_LIMIT as usize);
        check(&machine, &mut areas, &mut seen);
    }
    assert!(seen.certain > 1_000 && seen.others > 1_000, "{seen:?}");
}
