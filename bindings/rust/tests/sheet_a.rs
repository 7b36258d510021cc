//! The bench values of the requirements, P1 to P11.
#![forbid(unsafe_code)]

mod common;

use common::{a_with, bytes, chain, costs, link, links_a, readings, sheet_a, A, NONE};
use yeldmur::{distances, list, Refusal, Sheet, LINK_LIMIT, NODE_LIMIT, WEIGHT_LIMIT};

#[test]
fn it_is_148_bytes() {
    assert_eq!(sheet_a().bytes().len(), 148);
}

#[test]
fn p1_distances() {
    let values = [0.0, 1.0, 0.5, 1.25].map(Some);
    assert_eq!(distances(&sheet_a()).unwrap(), values);
}

#[test]
fn no_reading_for_0() {
    let a = sheet_a();
    let list = list(&a, 0).unwrap();
    assert_eq!((list.len(), list.taken()), (0, 0));
    assert!(list.is_empty());
    assert_eq!(list.result(), bytes(&[0, 0, 0, 0, NONE]));
}

#[test]
fn p2_the_best() {
    let a = sheet_a();
    let list = list(&a, 1).unwrap();
    assert_eq!((list.len(), list.taken()), (1, 0));
    assert_eq!(readings(&a, 1), [(112, vec![0, 2])]);
    let best = list.reading(0).unwrap();
    let labels: Vec<u32> = best.links().map(|link| link.ilabel).collect();
    assert_eq!((labels, best.end()), (vec![1, 3], 3));
    // the final node is state 0, and states count up to the start
    #[rustfmt::skip]
    let machine = bytes(&[
        3, 3, 0x3E80_0000, 0, // state 1
        1, 1, 0x3F80_0000, 1, // state 2
        0, 1, 0x3F00_0000, 1, 0, 0, 1, 0, 0, // states 0, 1, 2
        0, 32, 3, 2, 2, // trailer
    ]);
    assert_eq!(list.machine(), machine);
    assert_eq!(list.result(), [machine, bytes(&[2, 0])].concat());
}

#[test]
fn two() {
    let a = sheet_a();
    let list = list(&a, 2).unwrap();
    assert_eq!((list.len(), list.taken()), (2, 8));
    assert_eq!(readings(&a, 2), [(112, vec![0, 2]), (112, vec![1, 4])]);
    let machine = Sheet::read(list.machine()).unwrap();
    assert_eq!(machine.start(), Some(0));
    assert_eq!(machine.links().filter(|link| link.source == 0).count(), 2);
    let finals: Vec<Option<f32>> = machine.finals().collect();
    assert_eq!(finals[1], Some(0.0));
    assert_eq!(finals.iter().flatten().count(), 1);
    assert_eq!(
        list.result().len(),
        list.machine().len() + 4 * machine.link_count() as usize
    );
}

#[test]
fn p3_three() {
    let a = sheet_a();
    assert_eq!(costs(&a, 3), [112, 112, 144]);
    let list = list(&a, 3).unwrap();
    assert_eq!(list.taken(), 11);
    let third: Vec<u32> = list
        .reading(2)
        .unwrap()
        .links()
        .map(|link| link.olabel)
        .collect();
    assert_eq!(third, [1, 5, 4]);
}

#[test]
fn p4_four_and_p9_sixty_four() {
    let a = sheet_a();
    assert_eq!(readings(&a, 4), readings(&a, 3));
    assert_eq!(readings(&a, 64), readings(&a, 3));
    assert_eq!(list(&a, 4).unwrap().taken(), 11);
    assert_eq!(list(&a, 64).unwrap().len(), 3);
}

#[test]
fn p9_sixty_five() {
    assert_eq!(list(&sheet_a(), 65).unwrap_err(), Refusal::Count);
    assert_eq!(list(&sheet_a(), u32::MAX).unwrap_err(), Refusal::Count);
}

#[test]
fn p5_no_nodes() {
    let none = Sheet::read(bytes(&[0, 0, 0, 0, NONE])).unwrap();
    for n in 0..=64 {
        let list = list(&none, n).unwrap();
        assert_eq!((list.len(), list.taken()), (0, 0));
        assert_eq!(list.result(), none.bytes());
        assert_eq!(list.readings().count(), 0);
        assert!(list.reading(0).is_none());
    }
    assert_eq!(distances(&none).unwrap(), []);
}

#[test]
fn p6_nineteen_bytes() {
    assert_eq!(Sheet::read([0; 19]).unwrap_err(), Refusal::Layout);
}

#[test]
fn p7_the_grid() {
    let largest = WEIGHT_LIMIT as f32 / 64.0;
    assert_eq!(largest, 128.0);
    for sign in [1.0, -1.0] {
        assert!(Sheet::read(a_with(2, (sign * largest).to_bits())).is_ok());
        let off = Sheet::read(a_with(2, (sign * 128.015625f32).to_bits()));
        assert_eq!(off.unwrap_err(), Refusal::Weight);
    }
    // weights off the grid as it was when 64 was the largest
    assert!(Sheet::read(a_with(2, 64.015625f32.to_bits())).is_ok());
}

#[test]
fn p8_a_link_to_its_own_node() {
    let own = Sheet::read(a_with(3, 0)).unwrap();
    assert_eq!(list(&own, 2).unwrap_err(), Refusal::Climb);
    assert_eq!(distances(&own).unwrap_err(), Refusal::Climb);
}

#[test]
fn p10_nodes() {
    assert_eq!(NODE_LIMIT, 2048);
    let nodes = [None; NODE_LIMIT as usize + 1];
    let most = Sheet::write(&[], &nodes[1..], Some(0)).unwrap();
    assert_eq!(distances(&most).unwrap(), [Some(0.0)]);
    assert!(list(&most, 64).unwrap().is_empty());
    let more = Sheet::write(&[], &nodes, Some(0)).unwrap();
    assert_eq!(distances(&more).unwrap_err(), Refusal::Limits);
    assert_eq!(list(&more, 0).unwrap_err(), Refusal::Limits);
}

#[test]
fn links_at_the_limit() {
    assert_eq!(LINK_LIMIT, 16_384);
    let links = vec![link(0, 7, 0.0, 1); LINK_LIMIT as usize + 1];
    let most = Sheet::write(&links[1..], &[None, Some(0.0)], Some(0)).unwrap();
    assert_eq!(list(&most, 64).unwrap().len(), 64);
    let more = Sheet::write(&links, &[None, Some(0.0)], Some(0)).unwrap();
    assert_eq!(list(&more, 64).unwrap_err(), Refusal::Limits);
}

#[test]
fn p11_the_longest_chain() {
    let chain = chain(NODE_LIMIT, 128.0);
    let along: Vec<u32> = (0..NODE_LIMIT - 1).collect();
    for n in [1, 2, 64] {
        assert_eq!(readings(&chain, n), [(262_144 * 64, along.clone())]);
    }
    let values = distances(&chain).unwrap();
    let each: Vec<_> = (0..NODE_LIMIT).map(|v| Some(v as f32 * 128.0)).collect();
    assert_eq!(values, each);
}

#[test]
fn the_fields_by_hand_are_what_the_writer_writes() {
    let written = Sheet::write(&links_a(), &[None, None, None, Some(0.5)], Some(0)).unwrap();
    assert_eq!(written.bytes(), bytes(&A));
}
