//! The published Rust, on a machine that is built before the clock starts.

pub use oracle::reference::{built, Fst};

use published::algorithms::{shortest_distance_with_config, shortest_path_with_config};
use published::algorithms::{ShortestDistanceConfig, ShortestPathConfig};
use published::fst_traits::{CoreFst, ExpandedFst, MutableFst};
use published::semirings::{Semiring, TropicalWeight};
use published::{Tr, Trs};

pub fn distances(fst: &Fst) -> Vec<TropicalWeight> {
    shortest_distance_with_config(fst, false, ShortestDistanceConfig::new(1e-6)).unwrap()
}

/// A distance as the library's crate has it: infinity is an unreached node.
pub fn reached(distance: &TropicalWeight) -> Option<f32> {
    let cost = *distance.value();
    (cost != f32::INFINITY).then_some(cost)
}

pub fn list(fst: &Fst, n: u32) -> Fst {
    shortest_path_with_config(fst, ShortestPathConfig::new(1e-6, n as usize, false)).unwrap()
}

/// The links of a list's start: from n = 2 one a reading.
pub fn readings(list: &Fst) -> usize {
    list.start().map_or(0, |start| list.num_trs(start).unwrap())
}

/// The machine of a sheet that is laid out as it must be, field by field.
pub fn of_sheet(sheet: &[u8]) -> Fst {
    let word = |at: usize| u32::from_le_bytes(sheet[at..at + 4].try_into().unwrap());
    let trailer = sheet.len() - 20;
    let (mut link, mut node) = (0, word(trailer + 4) as usize);
    let mut fst = Fst::new();
    fst.add_states(word(trailer + 8) as usize);
    for state in 0..word(trailer + 8) {
        for _ in 0..word(node) {
            let weight = f32::from_bits(word(link + 8));
            let tr = Tr::new(word(link), word(link + 4), weight, word(link + 12));
            fst.add_tr(state, tr).unwrap();
            link += 16;
        }
        if word(node + 4) == 1 {
            let weight = f32::from_bits(word(node + 8));
            fst.set_final(state, weight).unwrap();
        }
        node += 12;
    }
    let start = word(trailer + 16);
    if start != u32::MAX {
        fst.set_start(start).unwrap();
    }
    fst
}

/// The machine up to a node, which is final at weight 0 and has no links, and the machine from the node on.
pub fn parts(whole: &Fst, node: u32) -> [Fst; 2] {
    let mut first = Fst::new();
    first.add_states(node as usize + 1);
    for state in 0..node {
        for tr in whole.get_trs(state).unwrap().trs() {
            first.add_tr(state, tr.clone()).unwrap();
        }
    }
    first.set_final(node, TropicalWeight::one()).unwrap();
    first.set_start(whole.start().unwrap()).unwrap();
    let mut second = Fst::new();
    second.add_states(whole.num_states() - node as usize);
    for state in node..whole.num_states() as u32 {
        for tr in whole.get_trs(state).unwrap().trs() {
            let tr = Tr::new(tr.ilabel, tr.olabel, tr.weight, tr.nextstate - node);
            second.add_tr(state - node, tr).unwrap();
        }
        if let Some(weight) = whole.final_weight(state).unwrap() {
            second.set_final(state - node, weight).unwrap();
        }
    }
    second.set_start(0).unwrap();
    [first, second]
}
