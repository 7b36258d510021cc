//! Bench values of the requirements, as far as the Rust can give them, and one known list with ties.

use crate::bytes;
use crate::machine::{weight, Form, Link, Machine, Node, NODES, UNITS};
use crate::readings::{readings, Reading};
use crate::reference::{distances, list};

/// A machine with start 0 of links (source, label on both sides, sixty-fourths, next), by source.
fn built(count: usize, links: &[(usize, u32, i32, u32)], last: i32) -> Machine {
    let mut nodes = vec![Node::default(); count];
    for (source, label, units, next) in links {
        nodes[*source].links.push(Link {
            input: *label,
            output: *label,
            weight: weight(*units),
            next: *next,
        });
    }
    nodes[count - 1].end = Some(weight(last));
    Machine {
        nodes,
        start: Some(0),
        form: Form::Short,
    }
}

pub fn sheet_a() -> Machine {
    let links = [
        (0, 1, 64, 1),
        (0, 2, 32, 2),
        (1, 3, 16, 3),
        (1, 5, 0, 2),
        (2, 4, 48, 3),
    ];
    built(4, &links, 32)
}

/// Two equal links, then three.
fn twice() -> Machine {
    let links = [(0, 1), (0, 1), (1, 2), (1, 2), (1, 2)];
    built(3, &links.map(|(source, next)| (source, 7, 0, next)), 0)
}

fn chain() -> Machine {
    let links: Vec<_> = (1..NODES).map(|v| (v - 1, 1, UNITS, v as u32)).collect();
    built(NODES, &links, UNITS)
}

/// The readings and the entries taken.
fn told(machine: &Machine, n: usize) -> (Vec<Reading>, usize) {
    let list = list(machine, n);
    (readings(&list, n), list.taken)
}

fn reading(cost: i32, links: &[u32]) -> Reading {
    Reading {
        cost,
        links: links.to_vec(),
    }
}

/// Each check, with whether it holds.
pub fn checks() -> Vec<(&'static str, bool)> {
    [checks_of_short(), checks_of_long()].concat()
}

fn checks_of_short() -> Vec<(&'static str, bool)> {
    let a = sheet_a();
    let best = || reading(112, &[0, 2]);
    let three = || vec![best(), reading(112, &[1, 4]), reading(144, &[0, 3, 4])];
    let empty = bytes::sheet(&Machine::default());
    let none = |n| {
        let list = list(&Machine::default(), n);
        bytes::list(&list) == empty && empty.len() == 20 && list.taken == 0
    };
    let all: Vec<u32> = (0..NODES as u32 - 1).collect();
    let steps = (0..NODES).map(|v| 128.0 * v as f32);
    let whole = || vec![reading(64 * 262_144, &all)];
    let zero = |links: &[u32]| reading(0, links);
    vec![
        ("sheet A has 148 bytes", bytes::sheet(&a).len() == 148),
        ("P1 distances", distances(&a) == [0.0, 1.0, 0.5, 1.25]),
        ("P2 best", told(&a, 1) == (vec![best()], 0)),
        (
            "n = 2",
            told(&a, 2) == (vec![best(), reading(112, &[1, 4])], 8),
        ),
        ("P3 n = 3", told(&a, 3) == (three(), 11)),
        ("P4 n = 4", told(&a, 4) == (three(), 11)),
        ("P5 no nodes", (0..=64).all(none)),
        ("P9 n = 64", told(&a, 64) == (three(), 11)),
        (
            "P11 chain, distances",
            distances(&chain()).into_iter().eq(steps),
        ),
        ("P11 chain, n = 1", told(&chain(), 1).0 == whole()),
        ("P11 chain, n = 2", told(&chain(), 2).0 == whole()),
        ("ties, n = 1", told(&twice(), 1).0 == [zero(&[0, 2])]),
        (
            "ties, n = 2",
            told(&twice(), 2).0 == [zero(&[1, 2]), zero(&[0, 3])],
        ),
    ]
}

/// The longer trailer: Sheet A with either unit behind it, no nodes, and the edges of the grid of 256ths.
fn checks_of_long() -> Vec<(&'static str, bool)> {
    let form = |form| Machine { form, ..sheet_a() };
    let [coarse, fine] = [64, 256].map(|unit| form(Form::Long(unit)));
    let three = |unit: i32| {
        let cost = |k| k * unit / 64;
        vec![
            reading(cost(112), &[0, 2]),
            reading(cost(112), &[1, 4]),
            reading(cost(144), &[0, 3, 4]),
        ]
    };
    let longer = |machine: &Machine, n| {
        let short = bytes::list(&list(&sheet_a(), n)).len();
        bytes::list(&list(machine, n)).len() == short + 4
    };
    let none = Machine {
        form: Form::Long(256),
        ..Machine::default()
    };
    let empty = |n| bytes::list(&list(&none, n)) == bytes::sheet(&none);
    let least = built(2, &[(0, 1, 1, 1)], -UNITS).in_form(Form::Long(256));
    let all: Vec<u32> = (0..NODES as u32 - 1).collect();
    let whole = vec![reading(64 * 262_144, &all)];
    let chain = chain().in_form(Form::Long(256));
    vec![
        ("unit 64, 152 bytes", bytes::sheet(&coarse).len() == 152),
        ("unit 64, n = 3", told(&coarse, 3) == (three(64), 11)),
        ("unit 256, n = 3", told(&fine, 3) == (three(256), 11)),
        (
            "both, answers",
            (0..=64).all(|n| longer(&coarse, n) && longer(&fine, n)),
        ),
        (
            "unit 256, no nodes",
            (0..=64).all(empty) && bytes::sheet(&none).len() == 24,
        ),
        (
            "unit 256, 1/256 and -32",
            told(&least, 1).0 == [reading(1 - UNITS, &[0])]
                && distances(&least) == [0.0, 1.0 / 256.0],
        ),
        ("unit 256, chain", told(&chain, 2).0 == whole),
    ]
}
