//! Barred links and final nodes: what is accepted, which readings are left, and how long the distances are.
#![forbid(unsafe_code)]

mod common;

use common::{a_with, link, readings, sheet_a, walked};
use yeldmur::{distances, list, raw, units, Link, Refusal, Sheet, Unit, BARRED};

const BITS: u32 = 0x7F80_0000;

fn sheet(links: &[Link], finals: &[Option<f32>], start: u32) -> Sheet {
    Sheet::write(links, finals, Some(start)).unwrap()
}

// A barred link beside one that is not, a barred one on the way, a barred final node, and a node that is led to from an unreached
// node alone.
fn e() -> Sheet {
    let links = [
        link(0, 1, 5.0, 1),
        link(0, 2, BARRED, 1),
        link(1, 3, BARRED, 2),
        link(2, 4, 0.0, 3),
    ];
    sheet(&links, &[None, Some(1.0), Some(BARRED), Some(0.0)], 0)
}

// No readings for any n, and no entry taken.
fn none(sheet: &Sheet) {
    for n in [0, 1, 2, 3, 64] {
        let list = list(sheet, n).unwrap();
        assert_eq!((list.len(), list.taken()), (0, 0));
        assert_eq!(list.result().len(), 20);
        assert_eq!(Sheet::read(list.machine()).unwrap().node_count(), 0);
    }
}

#[test]
fn one_pattern_alone_is_barred() {
    assert_eq!((BARRED.to_bits(), units(BARRED, Unit::Of64)), (BITS, None));
    let link = Sheet::read(a_with(2, BITS)).unwrap().link(0).unwrap();
    assert_eq!(link.weight, BARRED);
    let end = Sheet::read(a_with(31, BITS)).unwrap();
    assert_eq!((end.final_weight(3), end.final_count()), (Some(BARRED), 1));
    assert_eq!(raw::link(&a_with(2, BITS), 0), Ok([1, 1, BITS, 1]));
    assert_eq!(raw::node(&a_with(31, BITS), 3), Ok([0, 1, BITS]));
    for bits in [BITS - 1, BITS + 1, BITS | 1 << 31, 0x7FC0_0000] {
        assert_eq!(Sheet::read(a_with(2, bits)), Err(Refusal::Weight));
        assert_eq!(Sheet::read(a_with(31, bits)), Err(Refusal::Weight));
    }
    // where there is no final node a weight is not as laid out
    assert_eq!(Sheet::read(a_with(22, BITS)), Err(Refusal::Layout));
}

#[test]
fn other_refusals_come_as_before() {
    let next = Sheet::write(&[link(0, 1, BARRED, 2)], &[None, Some(0.0)], Some(0));
    assert_eq!(next, Err(Refusal::Next));
    let climb = sheet(&[link(0, 1, BARRED, 0)], &[Some(BARRED)], 0);
    assert_eq!(list(&climb, 2).unwrap_err(), Refusal::Climb);
    assert_eq!(distances(&climb).unwrap_err(), Refusal::Climb);
}

#[test]
fn written_and_read_again() {
    let e = e();
    let links: Vec<Link> = e.links().collect();
    let finals: Vec<Option<f32>> = e.finals().collect();
    assert_eq!(Sheet::write(&links, &finals, e.start()), Ok(e.clone()));
    assert_eq!(Sheet::read(e.bytes()), Ok(e.clone()));
    let text = "0\t1\t1\t1\t5\n0\t1\t2\t2\tInfinity\n1\t2\t3\t3\tInfinity\n1\t1\n2\t3\t4\t4\n2\tInfinity\n3\n";
    assert_eq!(e.to_string(), text);
    assert_eq!(text.parse(), Ok(e));
}

#[test]
fn the_reading_of_e() {
    let e = e();
    for (n, taken, bytes) in [(1, 0, 64), (2, 13, 160), (3, 16, 160), (64, 19, 160)] {
        assert_eq!(readings(&e, n), [(384, vec![0])]);
        let list = list(&e, n).unwrap();
        assert_eq!((list.taken(), list.result().len()), (taken, bytes));
        assert_eq!(list.reading(0).unwrap().end(), 1);
        // what is listed weighs something
        let machine = Sheet::read(list.machine()).unwrap();
        assert!(machine.links().all(|link| link.weight != BARRED));
    }
    // node 3 is led to from node 2 alone, which is not reached
    assert_eq!(distances(&e).unwrap(), [Some(0.0), Some(5.0), None]);
}

#[test]
fn all_readings_barred() {
    let over_a_link = sheet(&[link(0, 1, BARRED, 1)], &[None, Some(0.0)], 0);
    none(&over_a_link);
    assert_eq!(distances(&over_a_link).unwrap(), [Some(0.0), None]);
    let at_the_end = sheet(&[link(0, 1, 0.5, 1)], &[None, Some(BARRED)], 0);
    none(&at_the_end);
    assert_eq!(distances(&at_the_end).unwrap(), [Some(0.0), Some(0.5)]);
    let without_links = sheet(&[], &[Some(BARRED)], 0);
    none(&without_links);
    assert_eq!(distances(&without_links).unwrap(), [Some(0.0)]);
}

#[test]
fn fewer_readings_than_asked_for() {
    let mut links = vec![link(0, 1, 0.5, 1), link(0, 2, -0.5, 1)];
    links.extend((3..40).map(|label| link(0, label, BARRED, 1)));
    let sheet = sheet(&links, &[Some(BARRED), Some(0.25)], 0);
    assert_eq!(readings(&sheet, 1), [(-16, vec![1])]);
    for n in [2, 3, 64] {
        assert_eq!(readings(&sheet, n), [(-16, vec![1]), (48, vec![0])]);
        let (nodes, marked) = (sheet.link_count(), sheet.final_count());
        assert!(list(&sheet, n).unwrap().taken() <= 1 + marked + n * (nodes + 1));
    }
}

// The last value is that of the highest node that is reached, or that a link from a reached node leads to.
#[test]
fn length_of_the_distances() {
    let finals = [None; 5];
    let barred = |source, next| link(source, 1, BARRED, next);
    let from_reached = sheet(&[link(0, 1, 1.0, 1), barred(1, 4)], &finals, 0);
    let values = [Some(0.0), Some(1.0), None, None, None];
    assert_eq!(distances(&from_reached).unwrap(), values);
    let from_unreached = sheet(&[link(0, 1, 1.0, 1), barred(2, 4)], &finals, 0);
    assert_eq!(distances(&from_unreached).unwrap(), values[..2]);
    let below_the_start = sheet(&[barred(0, 4)], &finals, 1);
    assert_eq!(distances(&below_the_start).unwrap(), [None, Some(0.0)]);
    // node 3 is only led to, so that its own link counts nothing
    let twice = sheet(&[barred(0, 3), link(3, 1, 0.0, 4)], &finals, 0);
    let values = [Some(0.0), None, None, None];
    assert_eq!(distances(&twice).unwrap(), values);
    let beside = sheet(&[barred(0, 1), link(0, 1, -2.0, 1)], &finals, 0);
    assert_eq!(distances(&beside).unwrap(), [Some(0.0), Some(-2.0)]);
}

// All readings but those over the barred link.
#[test]
fn what_is_left_of_a() {
    let a = sheet_a();
    for barred in 0..a.link_count() {
        let mut links: Vec<Link> = a.links().collect();
        links[barred as usize].weight = BARRED;
        let finals: Vec<Option<f32>> = a.finals().collect();
        let part = sheet(&links, &finals, 0);
        let mut left = readings(&a, 64);
        left.retain(|(_, numbers)| !numbers.contains(&barred));
        let mut listed = readings(&part, 64);
        // in any order of those that cost the same
        left.sort();
        listed.sort();
        assert_eq!(listed, left);
        for (cost, numbers) in listed {
            assert_eq!(walked(&part, &numbers), Some((cost, 3)));
        }
        assert_eq!(readings(&part, 1)[0].0, left[0].0);
    }
}

// A result that is read back over what is barred is refused: it is no reading of that sheet.
#[test]
fn a_result_of_another_sheet() {
    let a = sheet_a();
    for n in [1, 2, 3] {
        let whole = list(&a, n).unwrap();
        let machine = Sheet::read(whole.machine()).unwrap();
        let listed = raw::Listed {
            states: machine.node_count(),
            links: machine.link_count(),
            taken: whole.taken(),
        };
        let over: Vec<u32> = whole.reading(0).unwrap().numbers().collect();
        let bars = [4 * 4 * over[0] as usize + 8, 4 * 31];
        for at in bars {
            let mut part = a.bytes().to_vec();
            part[at..at + 4].copy_from_slice(&BITS.to_le_bytes());
            let told = raw::reading(&part, n, whole.result(), listed, 0, &mut [0; 4]);
            assert_eq!(told, Err(Refusal::NoAnswer));
        }
    }
}
