//! Every refusal from the input, from a damaged sheet, and what the crate says of it.
#![forbid(unsafe_code)]

mod common;

use common::{a_with, bytes, link, sheet_a, A, NONE};
use yeldmur::{distances, list, raw, Areas, Refusal, Sheet, NODE_LIMIT};

fn refused(bytes: Vec<u8>) -> u32 {
    Sheet::read(bytes).unwrap_err().number()
}

// places of Sheet A's fields, in words
const NODES: usize = 20;
const TRAILER: usize = 32;

#[test]
fn layout() {
    assert_eq!(refused(vec![]), 1);
    assert_eq!(refused(bytes(&A)[1..].to_vec()), 1);
    assert_eq!(refused([bytes(&A), vec![0]].concat()), 1);
    assert_eq!(refused(a_with(TRAILER, 4)), 1); // offset of links
    assert_eq!(refused(a_with(TRAILER + 1, 64)), 1); // offset of nodes
    assert_eq!(refused(a_with(TRAILER + 2, 5)), 1); // node count
    assert_eq!(refused(a_with(TRAILER + 3, 4)), 1); // link count
    assert_eq!(refused(a_with(TRAILER + 3, 1 << 28)), 1); // 16 T is 0 in 32 bits
    assert_eq!(refused(a_with(NODES, 3)), 1); // the sum of link counts
    assert_eq!(refused(a_with(NODES + 1, 2)), 1); // a mark
    assert_eq!(refused(a_with(NODES + 2, 0x8000_0000)), 1); // an absent final's weight
    assert_eq!(refused(a_with(NODES + 2, 0x7F80_0000)), 1); // the same, barred
}

#[test]
fn start() {
    assert_eq!(refused(a_with(TRAILER + 4, 4)), 2);
    assert_eq!(refused(a_with(TRAILER + 4, NONE - 1)), 2);
    assert!(Sheet::read(a_with(TRAILER + 4, NONE)).is_ok());
}

#[test]
fn next() {
    assert_eq!(refused(a_with(3, 4)), 3);
    assert_eq!(refused(a_with(19, NONE)), 3);
}

#[test]
fn weight() {
    for off in [
        f32::NAN,
        f32::NEG_INFINITY,
        // the patterns beside that of infinity
        f32::MAX,
        f32::from_bits(0x7F80_0001),
        -0.0,
        128.015625,
        -128.015625,
        0.01,
    ] {
        assert_eq!(refused(a_with(2, off.to_bits())), 4);
        assert_eq!(refused(a_with(31, off.to_bits())), 4);
    }
}

#[test]
fn size_and_climb_and_count() {
    let large = Sheet::write(&[], &[None; NODE_LIMIT as usize + 1], None).unwrap();
    assert_eq!(distances(&large).unwrap_err().number(), 5);
    let level = Sheet::read(a_with(15, 1)).unwrap();
    assert_eq!(list(&level, 1).unwrap_err().number(), 6);
    assert_eq!(list(&sheet_a(), 65).unwrap_err().number(), 7);
}

#[test]
fn the_lowest_number_wins() {
    // a weight off the grid on the first link, a next node that is not there on the last
    let mut words = A;
    words[2] = f32::NAN.to_bits();
    words[19] = 4;
    assert_eq!(refused(bytes(&words)), 3);
    // too many nodes, a link that goes down, too large an n
    let mut nodes = vec![None; NODE_LIMIT as usize + 1];
    nodes[0] = Some(0.0);
    let sheet = Sheet::write(&[link(1, 1, 0.0, 0)], &nodes, Some(0)).unwrap();
    assert_eq!(list(&sheet, 65).unwrap_err(), Refusal::Limits);
    let sheet = Sheet::write(&[link(1, 1, 0.0, 0)], &nodes[..2], Some(0)).unwrap();
    assert_eq!(list(&sheet, 65).unwrap_err(), Refusal::Climb);
}

#[test]
fn a_refusal_leaves_the_areas_fit_for_use() {
    let mut areas = Areas::new();
    let a = sheet_a();
    assert_eq!(areas.list(&a, 65).unwrap_err(), Refusal::Count);
    let level = Sheet::read(a_with(15, 1)).unwrap();
    assert_eq!(areas.list(&level, 2).unwrap_err(), Refusal::Climb);
    assert_eq!(areas.list(&a, 2).unwrap().taken(), 8);
}

// Each damaged sheet to each raw call: the number of the call, and not a cell of an area changed.
#[test]
fn raw_calls_change_nothing() {
    let more = NODE_LIMIT + 1;
    let large = [vec![0; 3 * more as usize], vec![0, 0, more, 0, NONE]].concat();
    let damaged = [
        (1, vec![0; 19]),
        (2, a_with(TRAILER + 4, 4)),
        (3, a_with(3, 4)),
        (4, a_with(2, f32::NAN.to_bits())),
        (5, bytes(&large)),
        (6, a_with(3, 0)),
    ];
    for (number, sheet) in damaged {
        let mut work = vec![7; 8 * 5000];
        let mut result = vec![9; 5000];
        let refused = raw::shortest_distance(&sheet, &mut work, &mut result);
        assert_eq!(refused.unwrap_err().number(), number);
        for n in [0, 1, 2, 64, 65] {
            let refused = raw::shortest_path(&sheet, n, &mut work, &mut result);
            assert_eq!(refused.unwrap_err().number(), number);
            assert_eq!(raw::areas(&sheet, n).unwrap_err().number(), number);
        }
        assert!(work.iter().all(|&word| word == 7));
        assert!(result.iter().all(|&byte| byte == 9));
        let read = raw::read_sheet(&sheet).map_err(Refusal::number);
        assert_eq!(read, if number < 5 { Err(number) } else { Ok(()) });
    }
    let mut work = vec![7; 8 * 5000];
    let mut result = vec![9; 5000];
    let refused = raw::shortest_path(&bytes(&A), 65, &mut work, &mut result);
    assert_eq!(refused.unwrap_err(), Refusal::Count);
    assert_eq!(raw::areas(&bytes(&A), 65).unwrap_err(), Refusal::Count);
    assert!(work.iter().all(|&word| word == 7));
    assert!(result.iter().all(|&byte| byte == 9));
}

#[test]
fn numbers_and_words() {
    for number in 0..100 {
        let refusal = Refusal::from_number(number);
        let known = matches!(number, 1..=14 | 20 | 21 | 30 | 31);
        assert_eq!(refusal.is_some(), known);
        assert_eq!(refusal.map(Refusal::number), known.then_some(number));
    }
    let climb: Box<dyn std::error::Error> = Box::new(Refusal::Climb);
    assert_eq!(
        climb.to_string(),
        "refused 6: a link that does not lead to a higher node"
    );
    assert_eq!(
        Refusal::Labels.to_string(),
        "refused 10: a label that is 0 or differs between input and output"
    );
    assert_eq!(
        Refusal::Product.to_string(),
        "refused 11: a product above 2,048 nodes or 16,384 links"
    );
    assert_eq!(
        Refusal::Sum.to_string(),
        "refused 12: a finite sum off the grid"
    );
    assert_eq!(
        Refusal::Narrow.to_string(),
        "refused 13: a machine that does not narrow to the node"
    );
    assert_eq!(
        Refusal::Unit.to_string(),
        "refused 14: a unit that is neither 64 nor 256, or two sheets of unequal unit"
    );
    assert_eq!(
        Refusal::NoAnswer.to_string(),
        "refused 30: a result that is no answer"
    );
    assert_eq!(
        Refusal::Absent.to_string(),
        "refused 31: no reading, distance, link or node has this number"
    );
    assert_eq!(Refusal::Climb.words(), &climb.to_string()[11..]);
    assert_eq!(
        Refusal::Layout.to_string(),
        "refused 1: length, offsets, a count or offset too big for its field, marks, an absent final's weight field \
         or the sum of link counts is not as laid out under either trailer"
    );
}
