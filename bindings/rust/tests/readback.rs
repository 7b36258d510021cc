//! Results and sheets read back by the library's calls: answers whole, damaged, cut off and lengthened, and runs of every length.
#![forbid(unsafe_code)]

mod common;

use common::{a_with, bytes, chain, distance_bytes, link, sheet_a, walked, A, NONE};
use yeldmur::raw::{self, Counts, Listed};
use yeldmur::{ffi, Refusal, Sheet, BARRED, LIST_LIMIT, NODE_LIMIT};

const WORD: u32 = 0xDEAD_BEEF;

// The answer for n, as long as it is.
fn answer(sheet: &Sheet, n: u32) -> (Listed, Vec<u8>) {
    let needed = raw::areas(sheet.bytes(), n).unwrap();
    let (mut work, mut result) = (vec![0; needed.words()], vec![0; needed.bytes]);
    let listed = raw::shortest_path(sheet.bytes(), n, &mut work, &mut result).unwrap();
    result.truncate(listed.result_len(sheet.trailer()));
    (listed, result)
}

// Reading k, with its run.
fn reading(
    sheet: &Sheet,
    n: u32,
    listed: Listed,
    result: &[u8],
    k: u32,
) -> Result<(Vec<u32>, i32, u32), Refusal> {
    // a reading has fewer links than there are nodes
    let mut run = vec![WORD; sheet.node_count() as usize];
    let told = raw::reading(sheet.bytes(), n, result, listed, k, &mut run)?;
    assert!(run[told.links..].iter().all(|&word| word == WORD));
    run.truncate(told.links);
    Ok((run, told.cost, told.end))
}

// Whatever is told of a result is a reading of the sheet at its cost; all that is refused is refused with 30, or 31 past the last.
fn held_to_the_sheet(sheet: &Sheet, n: u32, listed: Listed, result: &[u8]) -> usize {
    let count = raw::readings(result, n, listed);
    assert!(matches!(count, Ok(0..=LIST_LIMIT) | Err(Refusal::NoAnswer)));
    assert!(count.map_or(true, |count| count <= n));
    let mut told = 0;
    for k in 0..n + 2 {
        match (reading(sheet, n, listed, result, k), count) {
            (Ok((run, cost, end)), Ok(count)) => {
                assert!(k < count);
                assert_eq!(walked(sheet, &run), Some((cost, end)));
                told += 1;
            }
            (Err(Refusal::NoAnswer), Ok(count)) => assert!(k < count),
            (Err(Refusal::Absent), Ok(count)) => assert!(k >= count),
            (refused, Err(number)) => assert_eq!(refused, Err(number)),
            (other, _) => panic!("{other:?}"),
        }
    }
    told
}

// Two final nodes, a reading without links, links of equal labels, negative weights.
fn mixed() -> Sheet {
    let links = [
        link(1, 7, -0.5, 2),
        link(1, 7, -0.5, 2),
        link(2, 8, 1.0, 4),
        link(2, 0, 0.25, 3),
        link(3, 9, -2.0, 4),
    ];
    let finals = [None, Some(0.25), None, Some(-1.0), Some(0.5)];
    Sheet::write(&links, &finals, Some(1)).unwrap()
}

// Barred links and a barred final node beside others, so that a damaged result may lead over them.
fn barred() -> Sheet {
    let links = [
        link(0, 1, 0.5, 1),
        link(0, 2, BARRED, 1),
        link(0, 3, 1.0, 2),
        link(1, 4, BARRED, 2),
        link(1, 5, 0.0, 2),
    ];
    Sheet::write(&links, &[None, Some(BARRED), Some(0.25)], Some(0)).unwrap()
}

#[test]
fn whole_answers() {
    for sheet in [sheet_a(), mixed(), barred(), chain(5, -128.0)] {
        for n in 0..=LIST_LIMIT {
            let (listed, result) = answer(&sheet, n);
            let count = raw::readings(&result, n, listed).unwrap();
            assert_eq!(held_to_the_sheet(&sheet, n, listed, &result) as u32, count);
            // what follows the answer is not looked at
            let longer = [result, vec![0xA5; 9]].concat();
            assert_eq!(held_to_the_sheet(&sheet, n, listed, &longer) as u32, count);
        }
    }
}

#[test]
fn the_readings_of_a() {
    let a = sheet_a();
    let (listed, result) = answer(&a, 3);
    assert_eq!(raw::readings(&result, 3, listed), Ok(3));
    let told: Vec<_> = (0..3).map(|k| reading(&a, 3, listed, &result, k)).collect();
    let readings = [
        (vec![0, 2], 112, 3),
        (vec![1, 4], 112, 3),
        (vec![0, 3, 4], 144, 3),
    ];
    assert_eq!(told, readings.map(Ok));
}

#[test]
fn every_byte_damaged() {
    for sheet in [sheet_a(), mixed(), barred()] {
        for n in [1, 2, 3, 5, 64] {
            let (listed, result) = answer(&sheet, n);
            let whole = held_to_the_sheet(&sheet, n, listed, &result);
            let mut fewer = 0;
            for at in 0..result.len() {
                for flip in [1, 2, 3, 4, 7, 0x10, 0x80, 0xFF] {
                    let mut damaged = result.clone();
                    damaged[at] ^= flip;
                    let told = held_to_the_sheet(&sheet, n, listed, &damaged);
                    fewer += usize::from(told < whole);
                }
            }
            assert!(fewer > 0);
        }
    }
}

#[test]
fn every_length() {
    let a = sheet_a();
    for n in [0, 1, 2, 64] {
        let (listed, result) = answer(&a, n);
        for length in 0..result.len() {
            let cut = raw::readings(&result[..length], n, listed);
            assert_eq!(cut, Err(Refusal::NoAnswer));
            assert_eq!(held_to_the_sheet(&a, n, listed, &result[..length]), 0);
        }
    }
}

// Counts that the call did not tell, another n, another sheet.
#[test]
fn answers_taken_for_others() {
    let (a, other) = (sheet_a(), mixed());
    let (listed, result) = answer(&a, 3);
    for states in (0..listed.states + 3).chain([1 << 28, u32::MAX - 1, u32::MAX]) {
        for links in (0..listed.links + 3).chain([1 << 28, u32::MAX - 1, u32::MAX]) {
            let counts = Listed {
                states,
                links,
                ..listed
            };
            for n in [0, 1, 2, 3, 64] {
                held_to_the_sheet(&a, n, counts, &result);
                held_to_the_sheet(&other, n, counts, &result);
            }
        }
    }
    assert_eq!(raw::readings(&result, 2, listed), Err(Refusal::NoAnswer)); // three readings are more than two
}

#[test]
fn runs_of_every_length() {
    for (sheet, n, k) in [(sheet_a(), 3, 2), (mixed(), 64, 0), (chain(9, 0.5), 1, 0)] {
        let (listed, result) = answer(&sheet, n);
        let (whole, cost, end) = reading(&sheet, n, listed, &result, k).unwrap();
        for room in 0..whole.len() + 3 {
            let mut run = vec![WORD; room];
            let told = raw::reading(sheet.bytes(), n, &result, listed, k, &mut run);
            let kept = if room < whole.len() { 0 } else { whole.len() };
            assert_eq!(run[..kept], whole[..kept]);
            assert!(run[kept..].iter().all(|&word| word == WORD));
            match told {
                Ok(told) => assert_eq!((told.links, told.cost, told.end), (kept, cost, end)),
                Err(refused) => assert_eq!((refused, kept), (Refusal::ResultArea, 0)),
            }
            assert_eq!(told.is_ok(), room >= whole.len());
        }
    }
}

// A reading without links needs no run at all.
#[test]
fn no_run() {
    let sheet = Sheet::write(&[], &[Some(-0.25)], Some(0)).unwrap();
    for n in [1, 2] {
        let (listed, result) = answer(&sheet, n);
        let told = raw::reading(sheet.bytes(), n, &result, listed, 0, &mut []).unwrap();
        assert_eq!((told.links, told.cost, told.end), (0, -16, 0));
    }
}

// What is lent keeps its values, with each number.
#[test]
fn refusals_of_a_reading() {
    let a = bytes(&A);
    let (listed, result) = answer(&sheet_a(), 3);
    let more = NODE_LIMIT + 1;
    let large = bytes(&[vec![0; 3 * more as usize], vec![0, 0, more, 0, NONE]].concat());
    let cases = [
        (1, vec![0; 19], 3, 0),
        (2, a_with(36, 4), 3, 0),
        (3, a_with(3, 4), 3, 0),
        (4, a_with(2, f32::NAN.to_bits()), 65, 9),
        (5, large, 65, 9),
        (6, a_with(3, 0), 65, 9),
        (7, a.clone(), 65, 9),
        (30, a.clone(), 2, 9),
        (31, a.clone(), 3, 3),
        (31, a.clone(), 64, u32::MAX),
        (30, a_with(36, 1), 3, 0), // the runs begin at node 0
        (21, a, 3, 2),
    ];
    for (number, sheet, n, k) in cases {
        let mut run = [WORD; 2];
        let (mut count, mut cost, mut end) = (11, 12, 13);
        let (states, links) = (listed.states, listed.links);
        let told = ffi::reading(
            &sheet, n, &result, states, links, k, &mut run, &mut count, &mut cost, &mut end,
        );
        assert_eq!(told, number);
        assert_eq!((run, count, cost, end), ([WORD; 2], 11, 12, 13));
    }
}

#[test]
fn refusals_of_readings() {
    let (listed, result) = answer(&sheet_a(), 3);
    for (number, n, room) in [
        (7, 65, result.len()),
        (7, u32::MAX, 0),
        (30, 3, result.len() - 1),
        (30, 2, result.len()),
        (30, 0, 0),
    ] {
        let mut count = 11;
        let told = ffi::readings(&result[..room], n, listed.states, listed.links, &mut count);
        assert_eq!((told, count), (number, 11));
    }
}

#[test]
fn distances_read_back() {
    let told = |sheet: &Sheet| -> Vec<Option<i32>> {
        let (values, result) = distance_bytes(sheet);
        (0..values)
            .map(|node| raw::distance(&result, values, node).unwrap())
            .collect()
    };
    assert_eq!(told(&sheet_a()), [0, 64, 32, 80].map(Some));
    let below = [None, Some(0), Some(-32), Some(-16), Some(-144)];
    assert_eq!(told(&mixed()), below);
    let last = NODE_LIMIT as i32 - 1;
    assert_eq!(
        told(&chain(NODE_LIMIT, -128.0)).pop(),
        Some(Some(-8192 * last))
    );
}

#[test]
fn refusals_of_a_distance() {
    let (values, result) = distance_bytes(&sheet_a());
    let none = u32::MAX;
    for (number, room, values, node) in [
        (30, result.len() - 1, values, 0),
        (30, result.len() - 1, values, none),
        (30, result.len(), none, none),
        (30, 0, 1, 0),
        (31, result.len(), values, values),
        (31, result.len(), values, none),
        (31, result.len(), 2, 2),
        (31, 0, 0, 0),
    ] {
        let (mut reached, mut cost) = (11, 12);
        let told = ffi::distance(&result[..room], values, node, &mut reached, &mut cost);
        assert_eq!((told, reached, cost), (number, 11, 12));
    }
}

// A pair of words is a distance, in sixty-fourths, or none.
fn of_words(mark: u32, bits: u32) -> Result<Option<i32>, Refusal> {
    raw::distance(&bytes(&[mark, bits]), 1, 0)
}

#[test]
fn words_of_a_distance() {
    let refused = Err(Refusal::NoAnswer);
    assert_eq!(of_words(0, 0), Ok(None));
    assert_eq!(of_words(1, 0), Ok(Some(0)));
    let most = 1 << 24;
    for units in [1, -1, 63, 64, 8193, most - 1, most, -most, 1 - most] {
        let bits = (units as f32 / 64.0).to_bits();
        assert_eq!(of_words(1, bits), Ok(Some(units)));
        assert_eq!(of_words(0, bits), refused);
        assert_eq!(of_words(2, bits), refused);
        assert_eq!(of_words(0x101, bits), refused);
    }
    for weight in [
        f32::NAN,
        f32::INFINITY,
        f32::NEG_INFINITY,
        0.01,
        1.0 / 128.0,
        262_144.03,
        -262_144.03,
        1e30,
        f32::MIN_POSITIVE,
        f32::from_bits(1),
    ] {
        assert_eq!(of_words(1, weight.to_bits()), refused, "{weight}");
    }
}

// Flipped bytes: a distance in sixty-fourths whose bits are those that stand there, or a refusal.
#[test]
fn damaged_distances() {
    let (values, result) = distance_bytes(&mixed());
    let mut told = 0;
    for at in 0..result.len() {
        for flip in 1..=255 {
            let mut damaged = result.clone();
            damaged[at] ^= flip;
            let node = at / 8;
            let pair = &damaged[8 * node..8 * node + 8];
            match raw::distance(&damaged, values, node as u32) {
                Ok(None) => assert_eq!(pair, [0; 8]),
                Ok(Some(units)) => {
                    assert_eq!(pair, bytes(&[1, (units as f32 / 64.0).to_bits()]));
                    told += 1;
                }
                Err(refused) => assert_eq!(refused, Refusal::NoAnswer),
            }
        }
    }
    assert!(told > 0);
}

#[test]
fn the_fields_of_a() {
    let mut words = A;
    words[1] = 9; // an output label of its own
    let a = bytes(&words);
    let counts = Counts {
        nodes: 4,
        links: 5,
        finals: 1,
        start: Some(0),
    };
    assert_eq!(raw::sheet_counts(&a), Ok(counts));
    for number in 0..5 {
        let at = 4 * number as usize;
        assert_eq!(raw::link(&a, number).unwrap(), words[at..at + 4]);
    }
    for number in 0..4 {
        let at = 20 + 3 * number as usize;
        assert_eq!(raw::node(&a, number).unwrap(), words[at..at + 3]);
    }
    for past in [5, 6, 1 << 28, NONE] {
        assert_eq!(raw::link(&a, past), Err(Refusal::Absent));
        let mut kept = [11; 4];
        let [ilabel, olabel, weight, next] = &mut kept;
        assert_eq!(ffi::link(&a, past, ilabel, olabel, weight, next), 31);
        assert_eq!(kept, [11; 4]);
    }
    for past in [4, 5, 1 << 30, NONE] {
        assert_eq!(raw::node(&a, past), Err(Refusal::Absent));
        let mut kept = [11; 3];
        let [links, mark, weight] = &mut kept;
        assert_eq!(ffi::node(&a, past, links, mark, weight), 31);
        assert_eq!(kept, [11; 3]);
    }
}

#[test]
fn counts_of_other_sheets() {
    let none = raw::sheet_counts(&bytes(&[0, 0, 0, 0, NONE])).unwrap();
    assert_eq!((none.nodes, none.links, none.finals), (0, 0, 0));
    assert_eq!(none.start, None);
    let mixed = raw::sheet_counts(mixed().bytes()).unwrap();
    assert_eq!((mixed.nodes, mixed.links, mixed.finals), (5, 5, 3));
    assert_eq!(mixed.start, Some(1));
    for (number, sheet) in [
        (1, vec![0; 19]),
        (1, a_with(21, 2)),
        (2, a_with(36, 4)),
        (3, a_with(3, 4)),
        (4, a_with(31, 1)),
    ] {
        let mut kept = [11; 4];
        let [nodes, links, finals, start] = &mut kept;
        assert_eq!(
            ffi::sheet_counts(&sheet, nodes, links, finals, start),
            number
        );
        assert_eq!(kept, [11; 4]);
    }
}
