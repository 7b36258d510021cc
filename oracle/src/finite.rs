//! The Rust's list without its infinite readings. The Rust lists them after the finite ones, and counts
//! them towards n; the requirements have them neither listed nor counted.

use crate::machine::{Link, Machine, Node, INFINITE};
use crate::readings::readings;
use crate::reference::List;

/// The list up to its first infinite reading, trimmed. The entries taken stay: no more than n are ever
/// finished, since the start is expanded no more often. So where the Rust stops at its n-th and that one is
/// infinite, its heap is empty, half-built entries coming before finished ones of equal rank.
pub fn finite(list: List, n: usize) -> List {
    let costs: Vec<i32> = readings(&list, n).iter().map(|r| r.cost).collect();
    let count = costs.iter().take_while(|cost| **cost < INFINITE).count();
    if count == costs.len() {
        return list;
    }
    assert!(count > 0 && costs[count..].iter().all(|cost| *cost == INFINITE));
    trimmed(&list, count)
}

/// A node's links, each with its word.
type Rows = Vec<(Link, u32)>;

/// The list with so many of its readings: states that the start no longer leads to go, the others are
/// renumbered in rising old number.
fn trimmed(list: &List, count: usize) -> List {
    let mut words = list.words.iter().copied();
    let rows = |node: &Node| node.links.iter().cloned().zip(words.by_ref()).collect();
    let mut rows: Vec<Rows> = list.machine.nodes.iter().map(rows).collect();
    // the start is state 0
    rows[0].truncate(count);
    let numbers = numbers(&rows);
    let stay = (0..rows.len()).filter(|state| numbers[*state].is_some());
    let mut machine = Machine {
        nodes: vec![],
        start: list.machine.start,
        form: list.machine.form,
    };
    let mut words = vec![];
    for state in stay {
        let renumbered = |(link, _): &(Link, u32)| Link {
            next: numbers[link.next as usize].unwrap(),
            ..link.clone()
        };
        machine.nodes.push(Node {
            links: rows[state].iter().map(renumbered).collect(),
            end: list.machine.nodes[state].end,
        });
        words.extend(rows[state].iter().map(|row| row.1));
    }
    List {
        machine,
        words,
        taken: list.taken,
    }
}

/// The new number of each state that the start leads to.
fn numbers(rows: &[Rows]) -> Vec<Option<u32>> {
    let mut led_to = vec![false; rows.len()];
    let mut more = vec![0];
    while let Some(state) = more.pop() {
        if !led_to[state] {
            led_to[state] = true;
            more.extend(rows[state].iter().map(|row| row.0.next as usize));
        }
    }
    let mut number = 0..;
    let numbers = led_to
        .into_iter()
        .map(|stays| stays.then(|| number.next().unwrap()));
    numbers.collect()
}
