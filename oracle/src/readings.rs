//! The readings that a list holds.

use crate::machine::Machine;
use crate::reference::{List, NONE};

/// A reading: its cost in the machine's units, `INFINITE` for one over a barred link or end, which the
/// Rust lists too, and its input links.
#[derive(Debug, PartialEq)]
pub struct Reading {
    pub cost: i32,
    pub links: Vec<u32>,
}

/// For n = 1 the one way of the machine; from n = 2 one way along each link of the start.
pub fn readings(list: &List, n: usize) -> Vec<Reading> {
    let Some(start) = list.machine.start else {
        return vec![];
    };
    let numbers = first_numbers(&list.machine);
    let first = numbers[start as usize];
    match n {
        1 => vec![follow(list, &numbers, Reading::new(), start, 0.0)],
        _ => (list.machine.nodes[start as usize].links.iter().enumerate())
            .map(|(position, link)| {
                let reading = Reading::new().with(list.words[first + position]);
                follow(list, &numbers, reading, link.next, link.weight)
            })
            .collect(),
    }
}

/// For each node the number of its first link.
fn first_numbers(machine: &Machine) -> Vec<usize> {
    let next = |number: &mut usize, links: usize| {
        *number += links;
        Some(*number - links)
    };
    let counts = machine.nodes.iter().map(|node| node.links.len());
    counts.scan(0, next).collect()
}

impl Reading {
    fn new() -> Self {
        Self {
            cost: 0,
            links: vec![],
        }
    }

    fn with(mut self, word: u32) -> Self {
        if word != NONE {
            self.links.push(word);
        }
        self
    }
}

/// Goes on from a node by each node's only link, to the final node.
fn follow(list: &List, numbers: &[usize], begun: Reading, from: u32, sum: f32) -> Reading {
    let mut reading = begun;
    let mut sum = sum;
    let mut node = from as usize;
    while let [link] = list.machine.nodes[node].links.as_slice() {
        reading = reading.with(list.words[numbers[node]]);
        sum += link.weight;
        node = link.next as usize;
    }
    assert!(list.machine.nodes[node].links.is_empty());
    sum += list.machine.nodes[node].end.expect("a final node");
    reading.cost = list.machine.form.units(sum);
    reading
}
