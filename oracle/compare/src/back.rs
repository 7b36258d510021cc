//! The calls that read answers back: costs in the sheet's own unit.

use oracle::bytes;
use oracle::machine::Machine;
use oracle::readings::{readings, Reading};
use oracle::reference::{self, List};

use crate::calls::Answer;
use crate::checker;
use crate::tally::Tally;
use yeldmur::ffi;

/// What is told holds this before a call.
const OLD: u32 = 0xA5C3_0F1E;

/// Reads each distance of an answer back in the machine's unit, and one in another, which is refused.
pub fn compare_distances(tally: &mut Tally, machine: &Machine, answer: &Answer) {
    let sheet = bytes::sheet(machine);
    let told = |node: u32, unit: u32| {
        let (mut reached, mut cost) = (OLD, OLD as i32);
        let (bytes, values) = (&answer.bytes, answer.counts[0]);
        let number = ffi::distance_in(bytes, values, node, unit, &mut reached, &mut cost);
        (number, reached, cost)
    };
    let unit = checker::unit(&sheet);
    let due = |distance: f32| match distance {
        f32::INFINITY => (0, 0, 0),
        distance => (0, 1, machine.form.units(distance)),
    };
    let distances = reference::distances(machine);
    let mut nodes = distances.iter().zip(0..);
    let same = nodes.all(|(distance, node)| told(node, unit) == due(*distance));
    tally.check("distances read back", &sheet, same);
    let kept = told(0, unit / 2) == (14, OLD, OLD as i32);
    tally.check("distance, another unit", &sheet, kept);
}

/// Reads each reading of an answer back: its links, its cost and its end.
pub fn compare_readings(
    tally: &mut Tally,
    machine: &Machine,
    n: u32,
    list: &List,
    answer: &Answer,
) {
    let sheet = bytes::sheet(machine);
    let [states, links, _] = answer.counts[..] else {
        unreachable!("three counts of a list")
    };
    let readings = readings(list, n as usize);
    let mut count = OLD;
    let number = ffi::readings(&answer.bytes, n, states, links, &mut count);
    let counted = (number, count) == (0, readings.len() as u32);
    tally.check(&format!("readings, n = {n}"), &sheet, counted);
    let ends: Vec<u32> = machine.links().map(|link| link.next).collect();
    let told = |k: u32, due: &Reading| {
        let mut run = vec![OLD; due.links.len()];
        let (mut count, mut cost, mut end) = (OLD, OLD as i32, OLD);
        let result = &answer.bytes;
        let number = ffi::reading(
            &sheet, n, result, states, links, k, &mut run, &mut count, &mut cost, &mut end,
        );
        let last = due.links.last().map(|link| ends[*link as usize]);
        number == 0
            && run == due.links
            && (count as usize, cost) == (run.len(), due.cost)
            && Some(end) == last.or(machine.start)
    };
    let same = readings.iter().zip(0..).all(|(due, k)| told(k, due));
    tally.check(&format!("readings read back, n = {n}"), &sheet, same);
}
