//! Damaged sheets and short areas: the number of each refusal against the checker, and both areas
//! byte for byte. A sheet that is still accepted is held to the published Rust.

use oracle::bench::sheet_a;
use oracle::bytes;
use oracle::cases::Case;
use oracle::machine::{Form, Link, Machine, Node};
use oracle::random::Random;

use crate::accepted;
use crate::calls::{self, outcome, Answer, Areas};
use crate::checker;
use crate::damage;
use crate::parts::Parts;
use crate::sizes;
use crate::tally::Tally;
use crate::units;
use crate::writer;
use yeldmur::ffi;

/// Areas about as long as needed, where something is needed: exact, short by a slot, a word, a value
/// or a byte, none, or longer.
fn areas(random: &mut Random, slots: usize, answer: Option<&Answer>) -> Areas {
    let words = 8 * slots;
    let length = answer.map_or(random.below(400), |answer| answer.bytes.len());
    let long = random.below(100);
    let shorter = |from: usize, by: usize| from.saturating_sub(by);
    Areas {
        words: random.pick(&[
            words,
            words,
            words + long,
            words + 8,
            shorter(words, 1),
            shorter(words, 8),
            0,
        ]),
        room: random.pick(&[
            length,
            length,
            length + long,
            length + 1,
            shorter(length, 1),
            shorter(length, 4),
            shorter(length, 8),
            0,
        ]),
    }
}

/// Makes every call on a sheet.
fn compare(tally: &mut Tally, random: &mut Random, sheet: &[u8], n: u32) {
    let number = ffi::read_sheet(sheet);
    tally.check("read", sheet, number == checker::read(sheet));
    units::compare(tally, sheet);
    compare_distances(tally, random, sheet);
    compare_list(tally, random, sheet, n);
}

fn compare_distances(tally: &mut Tally, random: &mut Random, sheet: &[u8]) {
    let tested = checker::distances(sheet);
    let accepted = tested == 0;
    let answer = accepted.then(|| accepted::distances(&bytes::machine(sheet)));
    let slots = if accepted {
        checker::distance_slots(sheet)
    } else {
        random.below(10)
    };
    let areas = areas(random, slots, answer.as_ref());
    let left = calls::distances(sheet, areas, random.word() as u32);
    let expected = outcome(tested, slots, areas, answer.as_ref());
    let call = format!("distances, {areas:?}");
    tally.count(&call, sheet, &left.faults(sheet, &expected));
}

fn compare_list(tally: &mut Tally, random: &mut Random, sheet: &[u8], n: u32) {
    let tested = checker::list(sheet, n);
    let accepted = tested == 0;
    let answer = accepted.then(|| accepted::list(&bytes::machine(sheet), n));
    let slots = if accepted {
        checker::list_slots(sheet, n)
    } else {
        random.below(200)
    };
    let areas = areas(random, slots, answer.as_ref());
    let left = calls::list(sheet, n, areas, random.word() as u32);
    let expected = outcome(tested, slots, areas, answer.as_ref());
    *tally.damaged.entry(expected.number).or_default() += 1;
    let call = format!("list, n = {n}, {areas:?}");
    tally.count(&call, sheet, &left.faults(sheet, &expected));
    sizes::compare(tally, sheet, n, answer.map(|answer| answer.bytes.len()));
}

/// Damages the sheet of a case, its n or its areas, and makes every call on it.
pub fn compare_damaged(tally: &mut Tally, random: &mut Random, case: &Case) {
    let mut parts = Parts::of(&case.machine);
    let mut n = case.n as u32;
    if random.once_in(50) {
        damage::grow(random, &mut parts);
    }
    for _ in 0..random.pick(&[0, 1, 1, 1, 1, 2, 2, 2, 3]) {
        damage::break_fields(random, &mut parts);
    }
    if random.once_in(8) {
        n = random.pick(&[65, 66, 128, 255, 256, 1 << 16, 1 << 31, u32::MAX, 64]);
    }
    writer::compare(tally, random, &parts);
    let mut sheet = parts.bytes();
    if random.once_in(16) {
        sheet = damage::between(random, &parts);
    }
    if random.once_in(16) {
        damage::change_length(random, &mut sheet);
    }
    if random.once_in(100) {
        sheet = damage::noise(random);
    }
    compare(tally, random, &sheet, n);
}

/// Breaks each field of some small sheets by itself in every way, and each two of them in some.
pub fn compare_each_field(tally: &mut Tally, random: &mut Random) {
    let forms = [
        (sheet_a(), Form::Short),
        (sheet_a(), Form::Long(256)),
        (two_nodes(), Form::Short),
        (two_nodes(), Form::Long(64)),
        (two_nodes(), Form::Long(256)),
        (Machine::default(), Form::Short),
        (Machine::default(), Form::Long(256)),
    ];
    for (machine, form) in forms {
        let machine = Machine { form, ..machine };
        let parts = Parts::of(&machine);
        let nodes = parts.nodes.len() as u32;
        let mut with = |broken: &[(usize, u32)]| {
            let mut changed = parts.clone();
            for (at, value) in broken {
                *changed.field(*at) = *value;
            }
            let n = random.pick(&[0, 1, 2, 3, 65]);
            compare(tally, random, &changed.bytes(), n);
        };
        let old = |at: usize| *parts.clone().field(at);
        let few = |at: usize| [0, 2, old(at).wrapping_add(1), 0x7FC0_0000, u32::MAX];
        for one in 0..parts.len() {
            for value in damage::values(old(one), nodes) {
                with(&[(one, value)]);
            }
            for other in 0..one {
                for value in few(one) {
                    for second in few(other) {
                        with(&[(one, value), (other, second)]);
                    }
                }
            }
        }
    }
}

fn two_nodes() -> Machine {
    let link = Link {
        input: 7,
        output: 9,
        weight: 3.0,
        next: 1,
    };
    let nodes = vec![
        Node {
            links: vec![link],
            end: None,
        },
        Node {
            links: vec![],
            end: Some(-1.0),
        },
    ];
    Machine {
        nodes,
        start: Some(0),
        form: Form::Short,
    }
}
