//! Drawn machines and an enumeration of all their readings.
#![forbid(unsafe_code)]

use std::collections::HashSet;

use super::{link, readings, write, Random};
use yeldmur::{distances, units, Link, Sheet, Unit};

/// A machine, and the unit that its sheet's trailer says, if it says one.
pub struct Machine {
    pub links: Vec<Link>,
    pub finals: Vec<Option<f32>>,
    pub start: u32,
    pub said: Option<Unit>,
}

/// A machine that climbs, with weights by a drawing of their own.
pub fn weighed(
    random: &mut Random,
    nodes: u32,
    links: u32,
    weight: impl Fn(&mut Random) -> f32,
) -> Machine {
    let mut links: Vec<Link> = (0..links)
        .map(|_| {
            let source = random.below(nodes - 1);
            let next = source + 1 + random.below(nodes - 1 - source);
            link(source, random.below(3), weight(random), next)
        })
        .collect();
    links.sort_by_key(|link| link.source);
    let finals = (0..nodes)
        .map(|_| (random.below(3) == 0).then(|| weight(random)))
        .collect();
    let start = random.below(nodes.div_ceil(4));
    Machine {
        links,
        finals,
        start,
        said: None,
    }
}

impl Machine {
    pub fn sheet(&self) -> Sheet {
        write(&self.links, &self.finals, Some(self.start), self.said).unwrap()
    }

    pub fn unit(&self) -> Unit {
        self.said.unwrap_or(Unit::Of64)
    }

    /// The link numbers of every reading, with its cost in units, apart from the library.
    pub fn readings(&self) -> Vec<(i32, Vec<u32>)> {
        self.all().readings
    }

    // Goes on from a run to a node, in units and link numbers; every node met is noted with the cost so far, and every node that is led
    // to from one.
    fn go_on(&self, node: u32, cost: i32, run: &mut Vec<u32>, found: &mut Found) {
        found.met.push((node, cost));
        let units = |weight| units(weight, self.unit());
        if let Some(weight) = self.finals[node as usize].and_then(units) {
            found.readings.push((cost + weight, run.clone()));
        }
        for (number, link) in self.links.iter().enumerate() {
            if link.source == node {
                found.highest = found.highest.max(link.next);
                let Some(weight) = units(link.weight) else {
                    continue;
                };
                run.push(number as u32);
                self.go_on(link.next, cost + weight, run, found);
                run.pop();
            }
        }
    }

    fn all(&self) -> Found {
        let mut found = Found {
            highest: self.start,
            ..Found::default()
        };
        self.go_on(self.start, 0, &mut vec![], &mut found);
        found
    }
}

#[derive(Default)]
struct Found {
    readings: Vec<(i32, Vec<u32>)>,
    met: Vec<(u32, i32)>,
    // the highest node that is met or led to
    highest: u32,
}

impl Found {
    fn distances(&self, unit: Unit) -> Vec<Option<f32>> {
        (0..=self.highest)
            .map(|v| {
                let costs = self.met.iter().filter(|m| m.0 == v).map(|m| m.1);
                costs.min().map(|cost| cost as f32 / unit.count() as f32)
            })
            .collect()
    }
}

/// Holds distances and lists for these n to the enumeration.
pub fn check(machine: &Machine, ns: impl IntoIterator<Item = u32>) {
    let sheet = machine.sheet();
    let found = machine.all();
    assert_eq!(distances(&sheet).unwrap(), found.distances(machine.unit()));
    let mut least: Vec<i32> = found.readings.iter().map(|reading| reading.0).collect();
    least.sort_unstable();
    let all: HashSet<_> = found.readings.into_iter().collect();
    for n in ns {
        let listed = readings(&sheet, n);
        let costs: Vec<i32> = listed.iter().map(|reading| reading.0).collect();
        assert_eq!(costs, least[..least.len().min(n as usize)]);
        assert!(listed.iter().all(|reading| all.contains(reading)));
        let once: HashSet<_> = listed.iter().collect();
        assert_eq!(once.len(), listed.len());
    }
}
