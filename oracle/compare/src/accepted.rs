//! Accepted sheets: every answer of the library against the published Rust.

use oracle::bytes;
use oracle::cases::Case;
use oracle::finite::finite;
use oracle::machine::{Form, Machine};
use oracle::random::Random;
use oracle::reference::{self, List};

use crate::back;
use crate::calls::{self, outcome, Answer, Areas};
use crate::checker;
use crate::parts::Parts;
use crate::sizes;
use crate::tally::Tally;
use crate::units;
use crate::writer;
use yeldmur::ffi;

/// The two words of a distance: the Rust's infinity is an unreached node, by a barred link or by none.
fn written(distance: f32) -> [u32; 2] {
    if distance == f32::INFINITY {
        [0, 0]
    } else {
        [1, distance.to_bits()]
    }
}

/// The Rust's distances, as the library must answer them: as many values, two words each.
pub fn distances(machine: &Machine) -> Answer {
    let distances = reference::distances(machine);
    let words = distances.iter().flat_map(|distance| written(*distance));
    Answer {
        counts: vec![distances.len() as u32],
        bytes: words.flat_map(u32::to_le_bytes).collect(),
    }
}

/// The Rust's list without its infinite readings, as the library must answer it.
pub fn list(machine: &Machine, n: u32) -> Answer {
    answered(&finite(reference::list(machine, n as usize), n as usize))
}

fn answered(list: &List) -> Answer {
    let counts = [list.machine.nodes.len(), list.words.len(), list.taken];
    Answer {
        counts: counts.map(|count| count as u32).to_vec(),
        bytes: bytes::list(list),
    }
}

/// Areas that are just long enough, and longer ones.
fn areas(random: &mut Random, slots: usize, bytes: usize) -> [Areas; 2] {
    let exact = Areas {
        words: 8 * slots,
        room: bytes,
    };
    let longer = Areas {
        words: exact.words + random.among(1, 40),
        room: exact.room + random.among(1, 80),
    };
    [exact, longer]
}

/// Compares the distances, the best reading, the list for the case's n, and one for any n.
pub fn compare(tally: &mut Tally, random: &mut Random, case: &Case) {
    let sheet = bytes::sheet(&case.machine);
    tally.sheets += 1;
    tally.barred += case.machine.is_barred() as u64;
    if let Form::Long(unit) = case.machine.form {
        *tally.longer.entry(unit).or_default() += 1;
    }
    tally.check("read", &sheet, ffi::read_sheet(&sheet) == 0);
    units::compare(tally, &sheet);
    writer::compare(tally, random, &Parts::of(&case.machine));
    compare_distances(tally, random, &sheet, &case.machine);
    let mut asked = vec![1, case.n as u32, random.below(65) as u32];
    asked.sort();
    asked.dedup();
    for n in asked {
        compare_list(tally, random, &sheet, &case.machine, n);
    }
}

fn compare_distances(tally: &mut Tally, random: &mut Random, sheet: &[u8], machine: &Machine) {
    let answer = distances(machine);
    let slots = checker::distance_slots(sheet);
    tally.distances += 1;
    for areas in areas(random, slots, answer.bytes.len()) {
        let left = calls::distances(sheet, areas, random.word() as u32);
        let expected = outcome(0, slots, areas, Some(&answer));
        let call = format!("distances, {areas:?}");
        tally.count(&call, sheet, &left.faults(sheet, &expected));
    }
    back::compare_distances(tally, machine, &answer);
}

fn compare_list(tally: &mut Tally, random: &mut Random, sheet: &[u8], machine: &Machine, n: u32) {
    let whole = reference::list(machine, n as usize);
    let listed = whole.words.len();
    let list = finite(whole, n as usize);
    let answer = answered(&list);
    let slots = checker::list_slots(sheet, n);
    tally.lists += 1;
    tally.cut += ((answer.counts[1] as usize) < listed) as u64;
    tally.asked.insert(n);
    for areas in areas(random, slots, answer.bytes.len()) {
        let left = calls::list(sheet, n, areas, random.word() as u32);
        let expected = outcome(0, slots, areas, Some(&answer));
        let call = format!("list, n = {n}, {areas:?}");
        tally.count(&call, sheet, &left.faults(sheet, &expected));
    }
    sizes::compare(tally, sheet, n, Some(answer.bytes.len()));
    back::compare_readings(tally, machine, n, &list, &answer);
}
