//! The raw calls in areas of every length near the one needed: refusals 20 and 21, and every cell of both areas afterwards.
#![forbid(unsafe_code)]

mod common;

use common::{bytes, A, NONE};
use yeldmur::raw::{self, Needed, SLOT};
use yeldmur::{ffi, Refusal, Trailer, LINK_LIMIT, LIST_LIMIT, NODE_LIMIT};

const WORD: u32 = 0xDEAD_BEEF;
const BYTE: u8 = 0xA5;

fn unchanged(work: &[u32], result: &[u8]) -> bool {
    work.iter().all(|&word| word == WORD) && result.iter().all(|&byte| byte == BYTE)
}

// The slots needed are zero and those beyond, with the words of a part of a slot, are as they were.
fn cleared(work: &[u32], slots: usize) -> bool {
    let (needed, beyond) = work.split_at(SLOT * slots);
    needed.iter().all(|&word| word == 0) && beyond.iter().all(|&word| word == WORD)
}

// N = 4, T = 5, F = 1
fn slots_of_a(n: usize) -> usize {
    match n {
        0 => 0,
        1 => 4,
        _ => 4 + 5 + 2 + 2 + n * 6,
    }
}

// With the longer trailer instead of the shorter.
fn longer(needed: Needed) -> Needed {
    Needed {
        bytes: needed.bytes + 4,
        ..needed
    }
}

#[test]
fn areas_of_a() {
    let a = bytes(&A);
    for n in 0..=64 {
        let needed = raw::areas(&a, n).unwrap();
        assert_eq!(raw::areas_of(4, 5, 1, n), Ok(longer(needed)));
        assert_eq!(needed.slots, slots_of_a(n as usize));
        assert_eq!(needed.words(), 8 * needed.slots);
        let mut work = vec![WORD; needed.words()];
        let mut result = vec![BYTE; needed.bytes];
        let listed = raw::shortest_path(&a, n, &mut work, &mut result).unwrap();
        assert!(listed.result_len(Trailer::Short) <= needed.bytes);
        assert!(cleared(&work, needed.slots));
    }
}

#[test]
fn areas_of_counts() {
    let most = raw::areas_of(NODE_LIMIT, LINK_LIMIT, NODE_LIMIT, LIST_LIMIT).unwrap();
    assert_eq!(most.slots, 2048 + 16384 + 2 * 2048 + 2 + 64 * 16385);
    for (counts, number) in [
        ([NODE_LIMIT + 1, 0, 0, 0], 5),
        ([0, LINK_LIMIT + 1, 0, 0], 5),
        ([NODE_LIMIT + 1, LINK_LIMIT + 1, 0, LIST_LIMIT + 1], 5),
        ([NODE_LIMIT, LINK_LIMIT, 0, LIST_LIMIT + 1], 7),
        ([0, 0, 0, u32::MAX], 7),
    ] {
        let [nodes, links, finals, n] = counts;
        let refused = raw::areas_of(nodes, links, finals, n);
        assert_eq!(refused.unwrap_err().number(), number);
        let (mut slots, mut bytes) = (11, 12);
        let told = ffi::areas_of(nodes, links, finals, n, &mut slots, &mut bytes);
        assert_eq!((told, slots, bytes), (number, 11, 12));
    }
    // no sheet has more final nodes than nodes
    let any = raw::areas_of(4, 5, u32::MAX, 2);
    assert_eq!(any, raw::areas_of(4, 5, 4, 2));
    assert_eq!(any.unwrap().slots, 4 + 5 + 2 * 4 + 2 + 2 * 6);
}

// Areas for more of each count serve a smaller sheet.
#[test]
fn areas_of_larger_counts() {
    let a = bytes(&A);
    for n in [0, 1, 2, 3, 64] {
        let needed = raw::areas_of(5, 7, 2, n).unwrap();
        let mut work = vec![WORD; needed.words()];
        let mut result = vec![BYTE; needed.bytes];
        assert!(raw::shortest_path(&a, n, &mut work, &mut result).is_ok());
    }
}

#[test]
fn a_list_in_short_areas() {
    let a = bytes(&A);
    for n in [0, 1, 2, 3, 4, 64] {
        let Needed { slots, bytes } = raw::areas(&a, n).unwrap();
        let mut answer = vec![BYTE; bytes + 3];
        let mut work = vec![WORD; SLOT * slots + 13];
        let listed = raw::shortest_path(&a, n, &mut work, &mut answer).unwrap();
        let length = listed.result_len(Trailer::Short);
        assert!(cleared(&work, slots));
        assert!(answer[length..].iter().all(|&byte| byte == BYTE));

        // one word short of the last slot
        if slots > 0 {
            let mut work = vec![WORD; SLOT * slots - 1];
            let mut result = vec![BYTE; length];
            let refused = raw::shortest_path(&a, n, &mut work, &mut result);
            assert_eq!(refused.unwrap_err(), Refusal::WorkArea);
            assert!(unchanged(&work, &result));
        }

        // every result that is too short, the empty one too
        for short in [0, 19, length - 1] {
            let mut work = vec![WORD; SLOT * slots + 13];
            let mut result = vec![BYTE; short];
            let refused = raw::shortest_path(&a, n, &mut work, &mut result);
            assert_eq!(refused.unwrap_err(), Refusal::ResultArea);
            assert!(cleared(&work, slots));
            assert!(unchanged(&[], &result));
        }

        // just long enough
        let mut work = vec![WORD; SLOT * slots];
        let mut result = vec![BYTE; length];
        assert_eq!(
            raw::shortest_path(&a, n, &mut work, &mut result),
            Ok(listed)
        );
        assert_eq!(result, answer[..length]);
        assert!(cleared(&work, slots));
    }
}

#[test]
fn work_is_tested_before_the_result() {
    let refused = raw::shortest_path(&bytes(&A), 2, &mut [], &mut []);
    assert_eq!(refused.unwrap_err(), Refusal::WorkArea);
    let refused = raw::shortest_distance(&bytes(&A), &mut [], &mut []);
    assert_eq!(refused.unwrap_err(), Refusal::WorkArea);
}

#[test]
fn a_sheet_without_nodes_needs_slots_too() {
    let none = bytes(&[0, 0, 0, 0, NONE]);
    assert_eq!(raw::areas(&none, 2).unwrap().slots, 4);
    assert_eq!(raw::areas(&none, 64).unwrap().slots, 66);
    let mut work = [WORD; 31];
    let mut result = [BYTE; 20];
    let refused = raw::shortest_path(&none, 2, &mut work, &mut result);
    assert_eq!(refused.unwrap_err(), Refusal::WorkArea);
    assert!(unchanged(&work, &result));
}

#[test]
fn distances_in_short_areas() {
    let a = bytes(&A);
    let refused = raw::shortest_distance(&a, &mut [WORD; 31], &mut [BYTE; 32]);
    assert_eq!(refused.unwrap_err(), Refusal::WorkArea);

    let mut work = [WORD; 35];
    let mut result = [BYTE; 31];
    let refused = raw::shortest_distance(&a, &mut work, &mut result);
    assert_eq!(refused.unwrap_err(), Refusal::ResultArea);
    assert!(cleared(&work, 4));
    assert!(unchanged(&[], &result));

    let mut work = [WORD; 35];
    let mut result = [BYTE; 34];
    assert_eq!(raw::shortest_distance(&a, &mut work, &mut result), Ok(4));
    assert!(cleared(&work, 4));
    let words = [1, 0, 1, 0x3F80_0000, 1, 0x3F00_0000, 1, 0x3FA0_0000];
    assert_eq!(result[..32], bytes(&words));
    assert_eq!(result[32..], [BYTE; 2]);
}

// Two words a node, up to the start alone: 0 and 0 below it, 1 and the bits of 0 for itself.
#[test]
fn the_words_of_distances() {
    for (start, words) in [(0, vec![1, 0]), (2, vec![0, 0, 0, 0, 1, 0]), (NONE, vec![])] {
        let sheet = bytes(&[0, 0, 0, 0, 0, 0, 0, 0, 0, 0, 0, 3, 0, start]);
        let mut result = [BYTE; 24];
        let told = raw::shortest_distance(&sheet, &mut [WORD; 24], &mut result);
        assert_eq!(told, Ok(words.len() as u32 / 2));
        assert_eq!(result[..4 * words.len()], bytes(&words));
        assert!(unchanged(&[], &result[4 * words.len()..]));
    }
}

// The areas for n = 1 are enough for distances: 8 bytes a node, whatever the links are.
#[test]
fn areas_for_one_reading_serve_distances() {
    for nodes in [0, 1, 2, 3, NODE_LIMIT] {
        let needed = raw::areas_of(nodes, 0, 0, 1).unwrap();
        assert_eq!(needed.slots, nodes as usize);
        assert_eq!(needed.bytes, 32 * nodes as usize + 24);
        assert_eq!(raw::areas_of(nodes, LINK_LIMIT, u32::MAX, 1), Ok(needed));
        let fields = vec![0; 3 * nodes as usize];
        let start = nodes.checked_sub(1).unwrap_or(NONE);
        let sheet = bytes(&[fields, vec![0, 0, nodes, 0, start]].concat());
        let mut work = vec![WORD; needed.words()];
        let mut result = vec![BYTE; needed.bytes];
        let told = raw::shortest_distance(&sheet, &mut work, &mut result);
        assert_eq!(told, Ok(nodes));
        assert!(unchanged(&[], &result[8 * nodes as usize..]));
    }
}

#[test]
fn a_sheet_written_in_short_areas() {
    let (links, rest) = A.split_at(20);
    let nodes = &rest[..12];
    let mut result = [BYTE; 147];
    let refused = raw::write_sheet(links, nodes, 0, &mut result);
    assert_eq!(refused.unwrap_err(), Refusal::ResultArea);
    assert!(unchanged(&[], &result));

    let mut result = [BYTE; 150];
    assert_eq!(raw::write_sheet(links, nodes, 0, &mut result), Ok(148));
    assert_eq!(result[..148], bytes(&A));
    assert_eq!(result[148..], [BYTE; 2]);
}

#[test]
fn the_writer_tests_1_to_4_before_21() {
    let (links, rest) = A.split_at(20);
    let nodes = &rest[..12];
    let written = |links: &[u32], nodes: &[u32], start| {
        let mut result = [BYTE; 10];
        let refused = raw::write_sheet(links, nodes, start, &mut result);
        assert!(unchanged(&[], &result));
        refused.unwrap_err().number()
    };
    assert_eq!(written(&links[1..], nodes, 0), 1);
    assert_eq!(written(links, &nodes[1..], 0), 1);
    assert_eq!(written(&links[4..], nodes, 0), 1);
    assert_eq!(written(links, nodes, 4), 2);
    let mut changed = links.to_vec();
    changed[3] = 4;
    assert_eq!(written(&changed, nodes, 0), 3);
    changed[3] = 1;
    changed[2] = 1;
    assert_eq!(written(&changed, nodes, 0), 4);
    assert_eq!(written(links, nodes, 0), 21);
}
