//! Damage to sheets: fields, lengths, counts that wrap, sizes, n. Each kind of it may meet others in
//! one sheet, so that the order of the tests shows.

use oracle::machine::{BARRED, LINKS, NODES};
use oracle::random::Random;
use oracle::reference::NONE;

use crate::parts::{Parts, START};

/// Weight bits off the grid: NaN, infinities, of which the positive one is accepted where there is a
/// weight, negative zero, the least above 0, 1/128, 128 and a sixty-fourth, 128 and a bit, and the
/// largest; and those off one of the two grids: 1/256, 32 and a 256th, 1/512, and 128.
pub const OFF_GRID: [u32; 14] = [
    0x7FC0_0000,
    0x7F80_0001,
    0x7F80_0000,
    0xFF80_0000,
    0x8000_0000,
    1,
    0x3C00_0000,
    0x4300_0400,
    0x4300_0001,
    0x7F7F_FFFF,
    0x3B80_0000,
    0x4200_0400,
    0x3B00_0000,
    0x4300_0000,
];

/// Values for a field that holds `old` in a sheet of so many nodes.
pub fn values(old: u32, nodes: u32) -> Vec<u32> {
    let near = [
        0,
        1,
        2,
        old.wrapping_add(1),
        old.wrapping_sub(1),
        old ^ 1 << 31,
        nodes.wrapping_sub(1),
        nodes,
        nodes + 1,
        NONE,
        NONE - 1,
        64,
        128,
        256,
    ];
    [near.as_slice(), &OFF_GRID].concat()
}

/// Any number of a list, none where it is empty.
fn any(random: &mut Random, length: usize) -> Option<usize> {
    (length > 0).then(|| random.below(length))
}

/// Breaks some fields.
pub fn break_fields(random: &mut Random, parts: &mut Parts) {
    match random.below(11) {
        0..=2 => any_field(random, parts),
        3 => trailer(random, parts),
        4 => weight(random, parts),
        5 => next_node(random, parts),
        6 => parts.trailer[START] = random.pick(&[parts.nodes.len() as u32, NONE - 1, 1 << 31]),
        7 => mark(random, parts),
        8 => wrap_counts(random, parts),
        9 => unit(random, parts),
        _ => wrap_trailer(random, parts),
    }
}

fn set(random: &mut Random, field: &mut u32, nodes: u32) {
    let old = *field;
    let others = [
        old ^ 1 << random.below(32),
        random.word() as u32,
        random.below(16) as u32,
    ];
    let all = [values(old, nodes), others.to_vec()].concat();
    *field = random.pick(&all);
}

fn any_field(random: &mut Random, parts: &mut Parts) {
    let nodes = parts.nodes.len() as u32;
    let at = random.below(parts.len());
    set(random, parts.field(at), nodes);
}

fn trailer(random: &mut Random, parts: &mut Parts) {
    let nodes = parts.nodes.len() as u32;
    let at = random.below(parts.trailer.len());
    set(random, &mut parts.trailer[at], nodes);
}

/// Another trailer, the weights as they are: the shorter one, or one of either unit or none.
fn unit(random: &mut Random, parts: &mut Parts) {
    let any = random.word() as u32;
    let near = random.pick(&[
        0,
        1,
        63,
        65,
        128,
        255,
        257,
        320,
        512,
        64 << 8,
        1 << 31,
        NONE,
    ]);
    let units = [
        None,
        Some(64),
        Some(256),
        Some(256),
        Some(near),
        Some(near),
        Some(any),
    ];
    *parts = parts.clone().with_unit(random.pick(&units));
}

/// A link's weight, or a node's final weight, which test 1 concerns where the mark is 0.
fn weight(random: &mut Random, parts: &mut Parts) {
    let bits = random.pick(&OFF_GRID);
    if random.once_in(3) {
        if let Some(v) = any(random, parts.nodes.len()) {
            parts.nodes[v][2] = bits;
        }
    } else if let Some(l) = any(random, parts.links.len()) {
        parts.links[l][2] = bits;
    }
}

/// A next node that is not there, or one that is not higher.
fn next_node(random: &mut Random, parts: &mut Parts) {
    let nodes = parts.nodes.len() as u32;
    if let Some(l) = any(random, parts.links.len()) {
        let low = random.below(parts.links[l][3] as usize % NODES + 1) as u32;
        parts.links[l][3] = random.pick(&[nodes, NONE, 0, low, low]);
    }
}

/// A mark that is no mark, or a weight where the mark is 0.
fn mark(random: &mut Random, parts: &mut Parts) {
    if let Some(v) = any(random, parts.nodes.len()) {
        let (mark, bits) = random.pick(&[
            (2, 0),
            (NONE, 0),
            (256, 0),
            (0, 1 << 31),
            (0, 1),
            (0, BARRED.to_bits()),
        ]);
        parts.nodes[v][1] = mark;
        parts.nodes[v][2] = bits;
    }
}

/// Link counts whose sum is right but for a multiple of 2^32, or right in the wrong places.
fn wrap_counts(random: &mut Random, parts: &mut Parts) {
    if parts.nodes.len() < 2 {
        return;
    }
    let word = random.word() as u32;
    let more = random.pick(&[1 << 31, 1, NONE, 1 << 16, word]);
    let (one, other) = (
        random.below(parts.nodes.len()),
        random.below(parts.nodes.len()),
    );
    parts.nodes[one][0] = parts.nodes[one][0].wrapping_add(more);
    parts.nodes[other][0] = parts.nodes[other][0].wrapping_sub(more);
}

/// Counts in the trailer by which the offset and the length are right in 32 bits.
fn wrap_trailer(random: &mut Random, parts: &mut Parts) {
    let link_count = random.pick(&[0, 1 << 28, 1 << 29, 1 << 31, 3 << 28]);
    let node_count = random.pick(&[0, 1 << 30, 1 << 31, 3 << 30]);
    parts.trailer[3] = parts.trailer[3].wrapping_add(link_count);
    parts.trailer[2] = parts.trailer[2].wrapping_add(node_count);
    // three links are as long as four nodes
    if random.once_in(3) {
        parts.trailer[3] = parts.trailer[3].wrapping_sub(3);
        parts.trailer[2] = parts.trailer[2].wrapping_add(4);
    }
    parts.trailer[1] = parts.trailer[3].wrapping_mul(16);
}

/// More nodes or links than are allowed, or just as many. New links lead from the last node but one.
pub fn grow(random: &mut Random, parts: &mut Parts) {
    if random.once_in(2) || parts.nodes.len() < 2 {
        let count = random.pick(&[NODES, NODES + 1, NODES + 1, NODES + 2]);
        let count = parts.nodes.len().max(count);
        parts.nodes.resize(count, [0, 0, 0]);
    } else {
        let last = parts.nodes.len() - 1;
        let count = random.pick(&[LINKS, LINKS + 1, LINKS + 1, LINKS + 2]);
        let more = count - parts.links.len().min(count);
        // the links of the last node stay behind those of the one before
        let own: usize = parts.nodes[last][0] as usize;
        let at = parts.links.len() - own;
        let new = vec![[7, 7, 16f32.to_bits(), last as u32]; more];
        parts.links.splice(at..at, new);
        parts.nodes[last - 1][0] += more as u32;
    }
    parts.lay_out();
}

/// A sheet between the two layouts: a word more or less about its trailer, the trailer's fields moved on by one, or
/// the fields of the other trailer, at its place, where its counts make the length right.
pub fn between(random: &mut Random, parts: &Parts) -> Vec<u8> {
    let mut words = [
        parts.link_words(),
        parts.node_words(),
        parts.trailer.clone(),
    ]
    .concat();
    let at = words.len() - parts.trailer.len();
    let word = random.pick(&[64, 256, 64, 256, 0, NONE, parts.trailer[START]]);
    match random.below(6) {
        0 => words.push(word),
        1 => drop(words.pop()),
        2 => words.insert(at, word),
        3 => drop(words.remove(at)),
        4 => words[at..].rotate_right(1),
        _ => overlay(parts, &mut words, word),
    }
    words.into_iter().flat_map(u32::to_le_bytes).collect()
}

/// A link less and a node more take four bytes less, so that the longer trailer fits; and the other way about.
fn overlay(parts: &Parts, words: &mut Vec<u32>, unit: u32) {
    let (links, nodes) = (parts.links.len() as u32, parts.nodes.len() as u32);
    let (links, nodes, unit) = match parts.unit() {
        None => (links.wrapping_sub(1), nodes + 1, Some(unit)),
        Some(_) => (links + 1, nodes.wrapping_sub(1), None),
    };
    let start = parts.trailer[START];
    let mut trailer = vec![0, links.wrapping_mul(16), nodes, links, start];
    trailer.extend(unit);
    words.truncate(words.len().saturating_sub(trailer.len()));
    words.extend(trailer);
}

/// Takes bytes away or adds some, at either end.
pub fn change_length(random: &mut Random, sheet: &mut Vec<u8>) {
    let count = random.pick(&[1, 2, 3, 4, 12, 16, 19, 20, 23, 24, 28]);
    let short = count.min(sheet.len());
    match random.below(4) {
        0 => drop(sheet.drain(..short)),
        1 => sheet.truncate(sheet.len() - short),
        2 => sheet.extend(vec![0; count]),
        _ => drop(sheet.splice(0..0, vec![0; count])),
    }
}

/// Bytes that were never a sheet.
pub fn noise(random: &mut Random) -> Vec<u8> {
    let byte = random.pick(&[0, 255, 1]);
    let any = random.once_in(2);
    let length = random.below(100);
    let bytes = (0..length).map(|_| if any { random.word() as u8 } else { byte });
    bytes.collect()
}
