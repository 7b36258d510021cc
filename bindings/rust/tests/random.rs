//! Drawn machines against an enumeration of all their readings.
#![forbid(unsafe_code)]

mod common;

use common::drawn::{check, weighed, Machine};
use common::{costs, walked, Random};
use yeldmur::{distances, units, Areas, Unit, WEIGHT_LIMIT};

// Few different weights make ties, many make none.
fn drawn(random: &mut Random, nodes: u32, links: u32, spread: u32) -> Machine {
    weighed(random, nodes, links, |random| random.weight(spread))
}

#[test]
fn small_machines() {
    let mut random = Random(1);
    for round in 0..1500 {
        let nodes = 2 + random.below(6);
        let links = random.below(20);
        let spread = [1, 3, WEIGHT_LIMIT as u32][round % 3];
        let machine = drawn(&mut random, nodes, links, spread);
        check(&machine, [0, 1, 2, 3, 5, 8, 64]);
    }
}

#[test]
fn machines_with_many_readings() {
    let mut random = Random(2);
    for spread in [1, 8, WEIGHT_LIMIT as u32] {
        for _ in 0..10 {
            let mut machine = drawn(&mut random, 14, 75, spread);
            machine.start = 0;
            check(&machine, [1, 2, 7, 63, 64]);
        }
    }
}

// Barred links and final nodes: no reading goes over them, but they lengthen the distances.
#[test]
fn machines_with_barred_links() {
    let mut random = Random(4);
    for round in 0..1500 {
        let nodes = 2 + random.below(6);
        let links = random.below(20);
        let spread = [1, 3, WEIGHT_LIMIT as u32][round % 3];
        let weight = |random: &mut Random| random.weight_or_barred(spread);
        let machine = weighed(&mut random, nodes, links, weight);
        check(&machine, [0, 1, 2, 3, 5, 8, 64]);
    }
    for _ in 0..10 {
        let mut machine = weighed(&mut random, 14, 75, |random| random.weight_or_barred(8));
        machine.start = 0;
        check(&machine, [1, 2, 7, 63, 64]);
    }
}

// Too many readings to enumerate: the lists of all n agree with each other and with the distances.
#[test]
fn a_large_machine() {
    let mut random = Random(3);
    let mut machine = drawn(&mut random, 1000, 6000, 64);
    machine.start = 0;
    let sheet = machine.sheet();
    let values = distances(&sheet).unwrap();
    let totals = values.iter().zip(&machine.finals);
    let least = totals
        .filter_map(|(distance, weight)| units((*distance)? + (*weight)?, Unit::Of64))
        .min();
    let mut areas = Areas::new();
    let longest = costs(&sheet, 64);
    assert_eq!(longest.len(), 64);
    assert_eq!(longest.first().copied(), least);
    assert!(longest.windows(2).all(|pair| pair[0] <= pair[1]));
    for n in 1..=64 {
        let list = areas.list(&sheet, n).unwrap();
        assert_eq!(list.len(), n as usize);
        for (reading, cost) in list.readings().zip(&longest) {
            assert_eq!(reading.cost(), *cost);
            let numbers: Vec<u32> = reading.numbers().collect();
            assert_eq!(walked(&sheet, &numbers), Some((*cost, reading.end())));
        }
    }
}
