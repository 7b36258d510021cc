//! The place finder beside the library: of tens of thousands of drawn inputs, whole and damaged, the same number or none.
#![forbid(unsafe_code)]

mod common;

use std::collections::BTreeMap;

use common::{bytes, chain, stating, Random, A};
use yeldmur::{raw, two_probes, Link, Refusal, Sheet, Unit};
use yeldmur_cli::diagnose::{fault, fault_of_both, form, Form, Place, Tests};

const NONE: u32 = 0xFFFF_FFFF;

// What the library says of rows. Rows of a sheet that is too long to make are too large for a search.
fn library_of_rows(text: &[u8], tests: Tests) -> Option<u32> {
    let told = || -> Result<Option<u32>, Refusal> {
        if raw::rows_sheet_bytes(text)? > 1_000_000 {
            return Err(Refusal::Limits);
        }
        Ok(library_of_sheet(Sheet::from_rows(text)?.bytes(), tests))
    };
    told().unwrap_or_else(|refusal| Some(refusal.number()))
}

// A sheet without nodes, of this unit.
fn empty(unit: Unit) -> Vec<u8> {
    match unit {
        Unit::Of64 => bytes(&[0, 0, 0, 0, NONE]),
        Unit::Of256 => bytes(&[0, 0, 0, 0, NONE, 256]),
    }
}

fn library_of_sheet(sheet: &[u8], tests: Tests) -> Option<u32> {
    let refused = match tests {
        Tests::Search => raw::areas(sheet, 0).err(),
        // beside a sheet without nodes and of the same unit there is nothing else to refuse
        Tests::Labels => {
            let unit = raw::unit(sheet).unwrap_or(Unit::Of64);
            raw::two_probes(sheet, &empty(unit), &mut [0; 24]).err()
        }
        Tests::Second(unit) => {
            let told = raw::two_probes(&empty(unit), sheet, &mut [0; 24]).err();
            told.filter(|&refusal| refusal != Refusal::Labels)
        }
        // no part has more than two words where the sheet has one
        Tests::Narrow(c) => raw::split(sheet, c, &mut vec![0; 2 * sheet.len() + 32]).err(),
        Tests::Rows => raw::sheet_rows_bytes(sheet).err(),
    };
    refused.map(Refusal::number)
}

// Compares, and counts how often each number came up.
#[derive(Default)]
struct Tally(BTreeMap<Option<u32>, usize>);

impl Tally {
    fn add(&mut self, form: Form, input: &[u8], tests: Tests, library: Option<u32>) {
        let found = fault(form, input, tests);
        let shown = || format!("{:?}: {found:?}", String::from_utf8_lossy(input));
        assert_eq!(found.as_ref().map(|f| f.number), library, "{}", shown());
        if let Some(fault) = &found {
            assert!(within(form, input, fault.place), "{}", shown());
        }
        *self.0.entry(library).or_default() += 1;
    }

    // Each number came up, and often enough.
    fn holds(&self, numbers: &[u32]) {
        let seen: Vec<u32> = self.0.keys().copied().flatten().collect();
        assert_eq!(seen, numbers);
        assert!(self.0.values().all(|&count| count >= 5), "{:?}", self.0);
        assert!(self.0.contains_key(&None));
    }
}

// A place is one that the input has.
fn within(form: Form, input: &[u8], place: Place) -> bool {
    match (form, place) {
        (Form::Rows, Place::Text { row, column }) => {
            let line = input.split_inclusive(|&byte| byte == b'\n').nth(row - 1);
            line.is_some_and(|line| (1..=line.len() + 1).contains(&column))
        }
        (Form::Rows, place) => place == Place::Whole && input.is_empty(),
        (Form::Sheet, Place::Link(link)) => (link as usize) < input.len() / 16,
        (Form::Sheet, Place::Node(node)) => (node as usize) < input.len() / 12,
        (Form::Sheet, place) => matches!(place, Place::Field(_)),
    }
}

#[rustfmt::skip]
const FIELDS: [&str; 39] = [
    "0", "1", "2", "3", "7", "00", "0001", "-0", "-1", "+1", "0.5", "-0.25", "0.3", "0.015625", "0.0156250", "1.", ".5", "1e3",
    "128", "-128", "128.000001", "127.984375", "129", "99999999999999999999", "2047", "2048", "4294967294", "4294967295",
    "4294967296", "x", "é", "\r", "", "\t", "Infinity", "infinity", "-Infinity", "Infinit", "Infinity0",
];

fn drawn_row(random: &mut Random) -> String {
    let node = |random: &mut Random| random.below(6);
    match random.below(8) {
        0 | 1 => format!("{}", node(random)),
        2 => format!("{} {}.5", node(random), random.below(9)),
        3 => format!("{} Infinity", node(random)),
        _ => {
            let source = node(random);
            let weight = random.one_of(&["", " 0.25", " -1", "\t0", " Infinity"]);
            format!("{source} {} 1 2{weight}", source + 1 + node(random))
        }
    }
}

// A few rows, and nearly always something wrong with them.
fn damaged_rows(random: &mut Random) -> Vec<u8> {
    let mut rows: Vec<String> = (0..random.below(6)).map(|_| drawn_row(random)).collect();
    for _ in 0..random.below(3) {
        if rows.is_empty() {
            break;
        }
        let row = random.below(rows.len());
        let mut fields: Vec<&str> = rows[row].split(' ').collect();
        let place = random.below(fields.len() + 1);
        match fields.get_mut(place) {
            Some(field) if random.below(4) > 0 => *field = random.one_of(&FIELDS),
            _ => fields.insert(place, random.one_of(&FIELDS)),
        }
        rows[row] = fields.join(" ");
    }
    let mut text = rows.join("\n").into_bytes();
    if random.below(12) > 0 && !text.is_empty() {
        text.push(b'\n');
    }
    if random.below(6) == 0 && !text.is_empty() {
        let place = random.below(text.len());
        text[place] = random.below(256) as u8;
    }
    text
}

#[test]
fn damaged_texts() {
    let mut random = Random(1);
    let [mut search, mut labels, mut narrow, mut second] = [0; 4].map(|_| Tally::default());
    for round in 0..60_000 {
        let text = damaged_rows(&mut random);
        for (tests, tally) in [
            (Tests::Search, &mut search),
            (Tests::Labels, &mut labels),
            (Tests::Narrow(round % 9), &mut narrow),
            (Tests::Second(Unit::Of64), &mut second),
        ] {
            tally.add(Form::Rows, &text, tests, library_of_rows(&text, tests));
        }
    }
    search.holds(&[1, 4, 5, 6, 8]);
    labels.holds(&[1, 4, 5, 6, 8, 10]);
    narrow.holds(&[1, 4, 5, 6, 8, 13]);
    second.holds(&[1, 4, 5, 6, 8]);
}

// Beside a sheet of the finer unit rows are refused with 14, unless they give no sheet.
#[test]
fn damaged_texts_beside_the_finer_unit() {
    let (mut random, mut counts) = (Random(6), BTreeMap::new());
    for _ in 0..20_000 {
        let text = damaged_rows(&mut random);
        let library = raw::rows_sheet_bytes(&text).err();
        let due = library.unwrap_or(Refusal::Unit).number();
        let found = fault(Form::Rows, &text, Tests::Second(Unit::Of256)).unwrap();
        assert_eq!(found.number, due, "{found:?}");
        *counts.entry(due).or_insert(0) += 1;
    }
    let seen: Vec<_> = counts.keys().copied().collect();
    assert_eq!(seen, [1, 4, 8, 14]);
}

// Each byte of the rows of Sheet A taken out, doubled, and changed to each other byte.
#[test]
fn every_byte_of_a_text() {
    let (mut search, mut labels) = (Tally::default(), Tally::default());
    for at in 0..A.len() {
        let mut texts: Vec<Vec<u8>> = (0..=255)
            .map(|byte| [&A.as_bytes()[..at], &[byte], &A.as_bytes()[at + 1..]].concat())
            .collect();
        texts.push([&A[..at], &A[at + 1..]].concat().into());
        texts.push([&A[..=at], &A[at..]].concat().into());
        texts.push(A[..at].into());
        for text in texts {
            for (tests, tally) in [(Tests::Search, &mut search), (Tests::Labels, &mut labels)] {
                tally.add(Form::Rows, &text, tests, library_of_rows(&text, tests));
            }
        }
    }
    search.holds(&[4, 6, 8]);
    labels.holds(&[4, 6, 8, 10]);
}

// How many of the sheets are small.
const SMALL: usize = 10;

// Sheets of several kinds: Sheet A with both trailers and in both units, one whose start is bare, one without start, one without nodes, one
// whose last node is bare, one with weights of the finer unit; two at the limits and two beyond.
fn sheets() -> Vec<Vec<u8>> {
    let of_rows = |text: &str| Sheet::from_rows(text.as_bytes()).unwrap().into_bytes();
    let mut bare = of_rows(A);
    let end = bare.len();
    bare[end - 4] = 2;
    let mut none = of_rows(A);
    none[end - 4..].fill(0xFF);
    let many = "0 1 1 1\n".repeat(16_384);
    vec![
        of_rows(A),
        of_rows("3 0 1 1 -0.5\n0 2\n1 4 1 1 Infinity\n1 Infinity\n4 1 2 2 128\n"),
        bare,
        none,
        bytes(&[0, 0, 0, 0, NONE]),
        bytes(&[1, 1, 0, 1, 1, 1, 0, 0, 0, 0, 0, 0, 0, 0, 16, 3, 1, 0]),
        stating(64, &of_rows(A)),
        stating(256, &of_rows(A)),
        empty(Unit::Of256),
        finest(),
        of_rows(&chain(2048, "128")),
        of_rows(&chain(2049, "0.5")),
        of_rows(&many),
        of_rows(&(many + "0 1 1 1\n")),
    ]
}

// Weights of the finer unit: the least, the largest and one that bars.
fn finest() -> Vec<u8> {
    bytes(
        &[
            [1, 1, 0x3B80_0000, 1].as_slice(),
            &[2, 2, 0x7F80_0000, 2],
            &[3, 3, 0xC200_0000, 2],
            &[2, 0, 0, 1, 1, 0xBB80_0000, 0, 1, 0x4200_0000],
            &[0, 48, 3, 3, 0, 256],
        ]
        .concat(),
    )
}

#[rustfmt::skip]
const WORDS: [u32; 29] = [
    0, 1, 2, 3, 4, 5, 16, 64, 80, 128, 256, 2048, 1 << 28, 1 << 30, NONE - 1, NONE, 0x3F80_0000, 0x3E99_999A, 0x8000_0000, 0x7F80_0000,
    0x7F80_0001, 0xFF80_0000, 0xFFC0_0000, 0x4300_0000, 0x4300_0001, 0xC300_0000, 0x3B80_0000, 0x4200_0000, 0x4200_0400,
];

// One or two words changed, near the ends more often; at times bytes cut off or added.
fn damaged_sheet(random: &mut Random, sheet: &[u8]) -> Vec<u8> {
    let mut damaged = sheet.to_vec();
    for _ in 0..random.below(3) {
        let words = damaged.len() / 4;
        let place = match random.below(3) {
            0 => words - 1 - random.below(words.min(20)),
            _ => random.below(words),
        };
        let word = random.one_of(&WORDS).to_le_bytes();
        damaged[4 * place..4 * place + 4].copy_from_slice(&word);
    }
    match random.below(12) {
        0 => damaged.truncate(random.below(sheet.len())),
        1 => damaged.extend_from_slice(&sheet[..random.below(sheet.len().min(40))]),
        2 => damaged[random.below(sheet.len())] ^= 1 << random.below(8),
        _ => {}
    }
    damaged
}

#[test]
fn damaged_sheets() {
    let (mut random, sheets) = (Random(2), sheets());
    let [mut search, mut labels, mut narrow, mut rows] = [0; 4].map(|_| Tally::default());
    let [mut second, mut finer] = [0; 2].map(|_| Tally::default());
    for round in 0..80_000 {
        // the large ones less often
        let kind = if round % 40 == 0 { sheets.len() } else { SMALL };
        let sheet = random.one_of(&sheets[..kind]);
        let damaged = damaged_sheet(&mut random, &sheet);
        for (tests, tally) in [
            (Tests::Search, &mut search),
            (Tests::Labels, &mut labels),
            (Tests::Narrow(round % 5), &mut narrow),
            (Tests::Rows, &mut rows),
            (Tests::Second(Unit::Of64), &mut second),
            (Tests::Second(Unit::Of256), &mut finer),
        ] {
            let library = library_of_sheet(&damaged, tests);
            tally.add(Form::Sheet, &damaged, tests, library);
        }
    }
    search.holds(&[1, 2, 3, 4, 5, 6, 14]);
    labels.holds(&[1, 2, 3, 4, 5, 6, 10, 14]);
    narrow.holds(&[1, 2, 3, 4, 5, 6, 13, 14]);
    rows.holds(&[1, 2, 3, 4, 9, 14]);
    second.holds(&[1, 2, 3, 4, 5, 6, 14]);
    finer.holds(&[1, 2, 3, 4, 6, 14]);
}

// Two machines with few labels, of which 0 is one now and then, and weights that often add up to more than there may be; at times so wide, or
// of so many nodes, that they are too large together.
fn one_of_two(random: &mut Random) -> Sheet {
    let weight =
        |random: &mut Random| random.one_of(&["0", "64", "-64", "64.5", "128", "Infinity"]);
    let mut text = String::from("0 1 7 7\n");
    for _ in 0..random.below(4) {
        let (source, label) = (random.below(3), 1 + random.below(3));
        let olabel = if random.below(24) == 0 {
            9 * random.below(2)
        } else {
            label
        };
        let ilabel = if random.below(24) == 0 { 0 } else { label };
        let next = source + 1 + random.below(3);
        text += &format!("{source} {next} {ilabel} {olabel} {}\n", weight(random));
    }
    let wide = if random.below(4) == 0 { 127 } else { 0 };
    text += &"0 1 7 7 0\n".repeat(wide + random.below(3));
    let high = if random.below(4) == 0 { 44 } else { 4 };
    text += &format!("{} {}\n", high + random.below(3), weight(random));
    Sheet::from_rows(text.as_bytes()).unwrap()
}

// The same with the shorter trailer, the longer one, or in the finer unit, where every number of units is what it was.
fn of_any_unit(random: &mut Random, sheet: Sheet) -> Sheet {
    let unit = random.one_of(&[None, Some(Unit::Of64), Some(Unit::Of256), Some(Unit::Of256)]);
    let Some(unit) = unit else {
        return sheet;
    };
    let scale = 64.0 / unit.count() as f32;
    let scaled = |link: Link| Link {
        weight: link.weight * scale,
        ..link
    };
    let links: Vec<Link> = sheet.links().map(scaled).collect();
    let finals: Vec<_> = sheet
        .finals()
        .map(|weight| weight.map(|weight| weight * scale))
        .collect();
    Sheet::write_in(&links, &finals, sheet.start(), unit).unwrap()
}

// 14 by the second's place, 10 by each sheet's, 11 and 12 by that of both.
#[test]
fn drawn_pairs() {
    let (mut random, mut counts) = (Random(4), BTreeMap::new());
    for _ in 0..8_000 {
        let [first, second] = [0, 1].map(|_| {
            let sheet = one_of_two(&mut random);
            of_any_unit(&mut random, sheet)
        });
        let library = two_probes(&first, &second).err().map(Refusal::number);
        let each = [&first, &second].map(|sheet| {
            let found = fault(Form::Sheet, sheet.bytes(), Tests::Labels);
            let number = found.as_ref().map(|fault| fault.number);
            if let Ok(text) = sheet.to_rows() {
                let of_rows = fault(Form::Rows, &text, Tests::Labels);
                assert_eq!(of_rows.map(|fault| fault.number), number);
            }
            let place = found.as_ref().map(|fault| fault.place);
            assert!(place.is_none_or(|place| within(Form::Sheet, sheet.bytes(), place)));
            found
        });
        let [one, other] = each;
        let unequal = fault(Form::Sheet, second.bytes(), Tests::Second(first.unit()));
        let found = unequal.or(one).or(other);
        let found = found.or_else(|| fault_of_both(&first, &second));
        assert_eq!(found.map(|fault| fault.number), library);
        *counts.entry(library).or_insert(0) += 1;
    }
    let seen: Vec<_> = counts.keys().copied().collect();
    assert_eq!(seen, [None, Some(10), Some(11), Some(12), Some(14)]);
    assert!(counts.values().all(|&count| count >= 100), "{counts:?}");
}

// A machine that mostly narrows to a node: links that hardly ever pass it, a mark below it now and then, a start above it at times.
fn one_to_split(random: &mut Random, c: usize) -> Sheet {
    let mut rows: Vec<String> = (0..1 + random.below(6))
        .map(|_| {
            let source = random.below(6);
            let room = if source < c && random.below(12) > 0 {
                c - source
            } else {
                3
            };
            let next = source + 1 + random.below(room);
            let weight = random.one_of(&["", " 0.5", " Infinity"]);
            format!("{source} {next} {} 7{weight}", random.below(9))
        })
        .collect();
    for node in 0..7 {
        if random.below(if node < c { 30 } else { 2 }) == 0 {
            rows.push(format!("{node} Infinity"));
        }
    }
    Sheet::from_rows((rows.join("\n") + "\n").as_bytes()).unwrap()
}

// 13 by the place in the sheet and in its rows.
#[test]
fn drawn_nodes() {
    let (mut random, mut counts) = (Random(5), BTreeMap::new());
    for _ in 0..8_000 {
        let c = random.below(8);
        let sheet = one_to_split(&mut random, c);
        let tests = Tests::Narrow(c as u32);
        let library = library_of_sheet(sheet.bytes(), tests);
        let text = sheet.to_rows().unwrap();
        for (form, input) in [(Form::Sheet, sheet.bytes()), (Form::Rows, &text)] {
            let found = fault(form, input, tests);
            assert_eq!(found.as_ref().map(|fault| fault.number), library);
            let place = found.map(|fault| fault.place);
            assert!(place.is_none_or(|place| within(form, input, place)));
        }
        *counts.entry(library).or_insert(0) += 1;
    }
    let seen: Vec<_> = counts.keys().copied().collect();
    assert_eq!(seen, [None, Some(13)]);
    assert!(counts.values().all(|&count| count >= 1_000), "{counts:?}");
}

// Each bit of Sheet A flipped, with each trailer and in each unit, and each length.
#[test]
fn every_bit_of_a_sheet() {
    let a = Sheet::from_rows(A.as_bytes()).unwrap().into_bytes();
    let (mut search, mut labels) = (Tally::default(), Tally::default());
    for sheet in [a.clone(), stating(64, &a), stating(256, &a)] {
        for at in 0..8 * sheet.len() {
            let mut damaged = sheet.clone();
            damaged[at / 8] ^= 1 << (at % 8);
            for (tests, tally) in [(Tests::Search, &mut search), (Tests::Labels, &mut labels)] {
                let library = library_of_sheet(&damaged, tests);
                tally.add(Form::Sheet, &damaged, tests, library);
            }
        }
    }
    search.holds(&[1, 2, 3, 4, 6, 14]);
    labels.holds(&[1, 2, 3, 4, 6, 10, 14]);
    // without its last word the longer trailer is the shorter
    let longer = stating(256, &a);
    for length in (0..longer.len()).filter(|&length| length != a.len()) {
        let found = fault(Form::Sheet, &longer[..length], Tests::Search).unwrap();
        assert_eq!(found.number, 1);
        let library = library_of_sheet(&longer[..length], Tests::Search);
        assert_eq!(library, Some(1));
    }
}

// Every sign and exponent of a weight, with no, one or all bits of the significand, in each unit.
#[test]
fn patterns_of_weights() {
    let mut tally = Tally::default();
    let digits = (0..23).map(|bit| 1 << bit).chain([0, 0x7F_FFFF]);
    for digits in digits {
        for top in 0..512 {
            let sheet = bytes(&[0, 1, top << 23 | digits, 0, 0, 1, 0, 0]);
            for sheet in [sheet.clone(), stating(64, &sheet), stating(256, &sheet)] {
                let library = library_of_sheet(&sheet, Tests::Search);
                tally.add(Form::Sheet, &sheet, Tests::Search, library);
            }
        }
    }
    tally.holds(&[4]);
}

// Whatever the library accepts as a sheet is taken for one, and as rows for rows; and no bytes are both.
#[test]
fn told_apart() {
    let mut random = Random(3);
    let sheets = sheets();
    for _ in 0..30_000 {
        let text = damaged_rows(&mut random);
        if raw::rows_sheet_bytes(&text).is_ok() {
            assert_eq!(form(&text), Form::Rows);
        }
        let kind = random.below(SMALL);
        let sheet = damaged_sheet(&mut random, &sheets[kind]);
        if raw::read_sheet(&sheet).is_ok() {
            assert_eq!(form(&sheet), Form::Sheet);
        }
    }
    for sheet in &sheets {
        assert_eq!(form(sheet), Form::Sheet);
    }
}
