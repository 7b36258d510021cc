//! Calls into the library, and what is wrong with what they did.

use crate::lent::Lent;
use yeldmur::ffi;

/// What a call that is not refused answers: its counts, and the bytes of its result.
pub struct Answer {
    pub counts: Vec<u32>,
    pub bytes: Vec<u8>,
}

/// What a call must do.
pub struct Outcome<'a> {
    pub number: u32,
    /// The slots of the work area that are left zero; the others are kept.
    pub zeros: usize,
    /// The answer where the number is 0. A refusal keeps the counts and the result as they were.
    pub answer: Option<&'a Answer>,
}

/// The outcome of a call that tests 1 to 7 answer with `tested`, that needs so many slots, and that
/// would answer this where the areas are long enough.
pub fn outcome(tested: u32, slots: usize, areas: Areas, answer: Option<&Answer>) -> Outcome<'_> {
    let refused = |number, zeros| Outcome {
        number,
        zeros,
        answer: None,
    };
    match answer {
        None => refused(tested, 0),
        Some(_) if areas.words / 8 < slots => refused(20, 0),
        Some(answer) if areas.room < answer.bytes.len() => refused(21, slots),
        Some(answer) => Outcome {
            number: 0,
            zeros: slots,
            answer: Some(answer),
        },
    }
}

/// The lengths of both areas: 32-bit words, and bytes.
#[derive(Clone, Copy, Debug)]
pub struct Areas {
    pub words: usize,
    pub room: usize,
}

/// What a call left behind.
pub struct Left {
    number: u32,
    counts: Vec<u32>,
    work: Lent<u32>,
    result: Lent<u8>,
    sheet: Vec<u8>,
}

/// What the counts hold before a call.
const COUNT: u32 = 0xA5C3_0F1E;

/// A sheet at a place in memory that varies with the seed.
fn placed(sheet: &[u8], seed: u32) -> (Vec<u8>, usize) {
    let from = (seed >> 8) as usize % 8;
    ([&vec![0; from], sheet].concat(), from)
}

pub fn distances(sheet: &[u8], areas: Areas, seed: u32) -> Left {
    let (bytes, from) = placed(sheet, seed);
    let mut work = Lent::new(seed, areas.words);
    let mut result = Lent::new(seed, areas.room);
    let mut values = COUNT;
    let number = ffi::shortest_distance(&bytes[from..], work.cells(), result.cells(), &mut values);
    Left {
        number,
        counts: vec![values],
        work,
        result,
        sheet: bytes[from..].to_vec(),
    }
}

pub fn list(sheet: &[u8], n: u32, areas: Areas, seed: u32) -> Left {
    let (bytes, from) = placed(sheet, seed);
    let mut work = Lent::new(seed, areas.words);
    let mut result = Lent::new(seed, areas.room);
    let mut counts = [COUNT; 3];
    let [states, links, taken] = &mut counts;
    let sheet = &bytes[from..];
    let number = ffi::shortest_path(sheet, n, work.cells(), result.cells(), states, links, taken);
    Left {
        number,
        counts: counts.to_vec(),
        work,
        result,
        sheet: bytes[from..].to_vec(),
    }
}

impl Left {
    /// What is not as it must be.
    pub fn faults(&self, sheet: &[u8], outcome: &Outcome) -> Vec<&'static str> {
        let kept = vec![COUNT; self.counts.len()];
        let counts = outcome.answer.map_or(&kept, |answer| &answer.counts);
        let bytes: &[u8] = outcome.answer.map_or(&[], |answer| &answer.bytes);
        let checks = [
            ("number", self.number == outcome.number),
            ("counts", self.counts == *counts),
            ("work area", self.work.holds(&vec![0; 8 * outcome.zeros])),
            ("result area", self.result.holds(bytes)),
            ("sheet", self.sheet == sheet),
        ];
        let wrong = checks.iter().filter(|(_, right)| !right);
        wrong.map(|(what, _)| *what).collect()
    }
}
