//! The bench values hold, sheets come back, and the cases are as the requirements accept them.

use std::collections::HashSet;

use oracle::bytes;
use oracle::cases::{Case, Cases};
use oracle::finite::finite;
use oracle::machine::{Form, Link, Machine, Node, BARRED, INFINITE, LINKS, NODES, UNITS};
use oracle::readings::{readings, Reading};
use oracle::{bench, reference};

#[test]
fn bench_values_hold() {
    for (what, holds) in bench::checks() {
        assert!(holds, "{what}");
    }
}

fn fits(form: Form, weight: f32) -> bool {
    form.units(weight).abs() <= UNITS && weight.to_bits() != 0x8000_0000
}

/// The tests of the requirements that concern a machine: 14, 2 to 5, and 6.
fn accepted(machine: &Machine) -> bool {
    let count = machine.nodes.len();
    let climbs = |(v, next): (usize, u32)| v < next as usize && (next as usize) < count;
    let sources = machine.nodes.iter().enumerate();
    let mut ways = sources.flat_map(|(v, node)| node.links.iter().map(move |l| (v, l.next)));
    let ends = machine.nodes.iter().filter_map(|node| node.end);
    let mut weights = machine.links().map(|l| l.weight).chain(ends);
    machine.start.is_none_or(|s| (s as usize) < count)
        && ways.all(climbs)
        && weights.all(|w| w == BARRED || fits(machine.form, w))
        && matches!(machine.form, Form::Short | Form::Long(64 | 256))
        && count <= NODES
        && machine.links().count() <= LINKS
}

#[test]
fn cases_are_accepted_and_come_back() {
    let all = [Cases::new(7), Cases::barred(7), Cases::of_both_forms(7)];
    for case in all.into_iter().flat_map(|cases| cases.take(3000)) {
        assert!(accepted(&case.machine) && case.n <= 64);
        let sheet = bytes::sheet(&case.machine);
        assert_eq!(bytes::from_hex(&bytes::hex(&sheet)).unwrap(), sheet);
        assert!(bytes::sheet(&bytes::machine(&sheet)) == sheet);
    }
}

#[test]
fn a_seed_names_its_cases() {
    let sheets = |seed| {
        let cases = Cases::new(seed).take(50);
        cases
            .map(|c| (bytes::sheet(&c.machine), c.n))
            .collect::<Vec<_>>()
    };
    assert!(sheets(1) == sheets(1) && sheets(1) != sheets(2));
}

/// Half of the machines are as without bars, and of the others many have both kinds of readings.
#[test]
fn bars_keep_the_machines() {
    let pairs = Cases::new(5).zip(Cases::barred(5)).take(1000);
    let (barred, plain): (Vec<_>, Vec<_>) = pairs.partition(|(_, case)| case.machine.is_barred());
    assert!(barred.len() > 400 && plain.len() > 400);
    for (without, with) in plain {
        assert!(
            bytes::sheet(&without.machine) == bytes::sheet(&with.machine) && without.n == with.n
        );
    }
    let costs = |case: &Case| readings(&reference::list(&case.machine, case.n), case.n);
    let mixed = barred.iter().map(|(_, case)| costs(case));
    let infinite = |told: &Vec<Reading>| told.iter().any(|r| r.cost == INFINITE);
    assert!(mixed.filter(infinite).count() > 50);
}

/// Half of the machines have the shorter trailer, and a quarter each the longer one with one of its units; a longer one
/// has as many units at each weight.
#[test]
fn forms_keep_the_machines() {
    let pairs: Vec<_> = (Cases::barred(5).zip(Cases::of_both_forms(5)))
        .take(2000)
        .collect();
    let of = |form| {
        pairs
            .iter()
            .filter(move |(_, case)| case.machine.form == form)
    };
    for (form, least) in [
        (Form::Short, 900),
        (Form::Long(64), 400),
        (Form::Long(256), 400),
    ] {
        assert!(of(form).count() > least);
    }
    for (without, with) in pairs {
        let same = without.machine.in_form(with.machine.form);
        assert!(bytes::sheet(&same) == bytes::sheet(&with.machine) && without.n == with.n);
    }
}

/// The search knows of no unit: the list of as many units is the same but for the form.
#[test]
fn lists_go_by_whole_units() {
    for (without, with) in Cases::barred(17).zip(Cases::of_both_forms(17)).take(1000) {
        let short = reference::list(&without.machine, without.n);
        let list = reference::list(&with.machine, with.n);
        assert!(list.machine.form == with.machine.form && list.words == short.words);
        assert!(list.taken == short.taken && readings(&list, with.n) == readings(&short, with.n));
        assert!(
            bytes::sheet(&list.machine) == bytes::sheet(&short.machine.in_form(with.machine.form))
        );
    }
}

/// A list is in order, and its readings run from the start to a final node and differ. The
/// cheapest one costs what n = 1 costs.
#[test]
fn lists_are_in_order() {
    let all = [Cases::new(11), Cases::barred(11), Cases::of_both_forms(11)];
    for case in all.into_iter().flat_map(|cases| cases.take(1000)) {
        let told = readings(&reference::list(&case.machine, case.n), case.n);
        assert!(told.windows(2).all(|pair| pair[0].cost <= pair[1].cost));
        let ways: HashSet<_> = told.iter().map(|reading| &reading.links).collect();
        assert!(ways.len() == told.len() && told.len() <= case.n);
        let best = readings(&reference::list(&case.machine, 1), 1);
        let cost = |readings: &[Reading]| readings.first().map(|r| r.cost);
        assert!(case.n == 0 || cost(&told) == cost(&best) && cost(&best) != Some(INFINITE));
        for reading in &told {
            assert_eq!(cost_of(&case.machine, &reading.links), Some(reading.cost));
        }
    }
}

/// What is left without the infinite readings is the list's beginning.
#[test]
fn finite_readings_come_first() {
    for case in Cases::barred(13).take(1000) {
        let whole = reference::list(&case.machine, case.n);
        let (all, taken) = (readings(&whole, case.n), whole.taken);
        let list = finite(whole, case.n);
        let told = readings(&list, case.n);
        assert!(all.starts_with(&told) && list.taken == taken);
        assert!(told.iter().all(|r| r.cost < INFINITE));
        assert!(all[told.len()..].iter().all(|r| r.cost == INFINITE));
    }
}

/// The smallest sheet whose list differs from the Rust's: the start is final, and a barred link leads
/// from it to another final node.
#[test]
fn the_rust_lists_an_infinite_reading() {
    let link = Link {
        input: 1,
        output: 1,
        weight: BARRED,
        next: 1,
    };
    let node = |links| Node {
        links,
        end: Some(0.0),
    };
    let machine = Machine {
        nodes: vec![node(vec![link]), node(vec![])],
        start: Some(0),
        form: Form::Short,
    };
    assert_eq!(bytes::sheet(&machine).len(), 60);
    assert_eq!(reference::distances(&machine), [0.0, BARRED]);
    let whole = reference::list(&machine, 2);
    let costs = |list: &_| {
        let told = readings(list, 2);
        told.iter().map(|r| r.cost).collect::<Vec<_>>()
    };
    assert_eq!((costs(&whole), whole.taken), (vec![0, INFINITE], 6));
    let list = finite(whole, 2);
    assert_eq!((costs(&list), list.taken), (vec![0], 6));
    assert_eq!(bytes::list(&list).len(), 128);
}

/// The cost of a run of links where it is a reading.
fn cost_of(machine: &Machine, run: &[u32]) -> Option<i32> {
    let sources = machine.nodes.iter().enumerate();
    let links: Vec<_> = sources
        .flat_map(|(v, node)| node.links.iter().map(move |link| (v as u32, link)))
        .collect();
    let mut at = machine.start?;
    let mut cost = 0.0;
    for number in run {
        let (source, link) = links[*number as usize];
        if source != at {
            return None;
        }
        at = link.next;
        cost += link.weight;
    }
    Some(machine.form.units(cost + machine.nodes[at as usize].end?))
}
