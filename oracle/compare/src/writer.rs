//! The writer: a sheet comes back from its links and nodes, and what makes no sheet is refused.

use oracle::random::Random;

use crate::checker;
use crate::lent::Lent;
use crate::parts::{Parts, START};
use crate::tally::Tally;
use yeldmur::ffi;

/// What the size holds before a call.
const SIZE: u64 = 0x1122_3344_5566_7788;

/// Writes links and nodes with the trailer that belongs to them, whatever offsets and counts they have, and
/// with another trailer.
pub fn compare(tally: &mut Tally, random: &mut Random, parts: &Parts) {
    let mut whole = parts.clone();
    whole.lay_out();
    compare_one(tally, random, &whole);
    let any = random.word() as u32;
    let unit = random.pick(&[None, Some(64), Some(256), Some(128), Some(any)]);
    compare_one(tally, random, &whole.with_unit(unit));
}

fn compare_one(tally: &mut Tally, random: &mut Random, whole: &Parts) {
    let bytes = whole.bytes();
    let (links, nodes) = (whole.link_words(), whole.node_words());
    let start = whole.trailer[START];
    let less = random.pick(&[1, 4]);
    let mut write = |links: &[u32], nodes: &[u32], tested: u32, room: usize| {
        let mut result = Lent::new(random.word() as u32, room);
        let (mut size, cells) = (SIZE, result.cells());
        let number = match whole.unit() {
            None => ffi::write_sheet(links, nodes, start, cells, &mut size),
            Some(unit) => ffi::write_sheet_in(links, nodes, start, unit, cells, &mut size),
        };
        let held = match tested {
            0 if room < bytes.len() => number == 21 && size == SIZE && result.holds(&[]),
            0 => number == 0 && size == bytes.len() as u64 && result.holds(&bytes),
            _ => number == tested && size == SIZE && result.holds(&[]),
        };
        tally.check(&format!("write, room {room}"), &bytes, held);
    };
    let tested = checker::read(&bytes);
    for room in [bytes.len(), bytes.len() - less, bytes.len() + 7] {
        write(&links, &nodes, tested, room);
    }
    // lists that are no whole number of records
    let longer = |words: &[u32]| [words, &[0]].concat();
    write(&longer(&links), &nodes, 1, bytes.len() + 16);
    write(&links, &longer(&nodes), 1, bytes.len() + 16);
}
