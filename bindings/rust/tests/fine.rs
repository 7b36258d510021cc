//! The longer trailer and its unit: cases by hand from the documents, each refusal beside what just passes, answers that keep the trailer,
//! and drawn machines.
#![forbid(unsafe_code)]

mod common;

use common::drawn::{check, weighed};
use common::{a_with, again, bytes, chain, costs, distance_bytes, link, readings, sheet_a};
use common::{walked, Random, A, NONE};
use yeldmur::raw::{self, Listed};
use yeldmur::{distances, ffi, list, split, two_probes, units};
use yeldmur::{Link, List, Refusal, Sheet, Trailer, Unit, BARRED, NODE_LIMIT, WEIGHT_LIMIT};

const BYTE: u8 = 0xA5;
const UNITS: [Unit; 2] = [Unit::Of64, Unit::Of256];

// A sheet with the shorter trailer and a word more is one with the longer.
fn longer(sheet: &[u8], unit: u32) -> Vec<u8> {
    [sheet, &unit.to_le_bytes()].concat()
}

fn a_in(unit: Unit) -> Sheet {
    Sheet::read(longer(&bytes(&A), unit.count())).unwrap()
}

fn number(sheet: Vec<u8>) -> u32 {
    Sheet::read(sheet).map_or_else(Refusal::number, |_| 0)
}

// One link of 1/256, and a final weight of -32.
const LINK: [u32; 4] = [7, 7, 0x3B80_0000, 1];
const NODES: [u32; 6] = [1, 0, 0, 0, 1, 0xC200_0000];

// What the writer says of these words with the longer trailer and this unit, which need not be one; and its bytes.
fn written(links: &[u32], nodes: &[u32], start: u32, unit: u32) -> (u32, Vec<u8>) {
    let (mut result, mut size) = ([BYTE; 100], 11);
    let number = ffi::write_sheet_in(links, nodes, start, unit, &mut result, &mut size);
    let kept = if number == 0 { size as usize } else { 0 };
    assert!(result[kept..].iter().all(|&byte| byte == BYTE));
    assert!(number == 0 || size == 11);
    (number, result[..kept].to_vec())
}

#[test]
fn the_finest_link() {
    let (number, sheet) = written(&LINK, &NODES, 0, 256);
    let words = [&LINK[..], &NODES, &[0, 16, 2, 1, 0, 256]].concat();
    assert_eq!((number, sheet.len()), (0, 64));
    assert_eq!(sheet, bytes(&words));
    assert_eq!(raw::unit(&sheet), Ok(Unit::Of256));
    let sheet = Sheet::read(sheet).unwrap();
    assert_eq!(
        (sheet.unit(), sheet.trailer()),
        (Unit::Of256, Trailer::Long)
    );
    assert_eq!(sheet.link(0).unwrap().weight, 0.00390625);
    assert_eq!(readings(&sheet, 1), [(-8191, vec![0])]);
    assert_eq!(readings(&sheet, 64), [(-8191, vec![0])]);
    let list = list(&sheet, 1).unwrap();
    let cost = list.reading(0).unwrap().cost_with_unit();
    assert_eq!(cost.to_string(), "-31.99609375");
    assert_eq!(distances(&sheet).unwrap(), [0.0, 0.00390625].map(Some));
}

// The same in no other unit.
#[test]
fn refused_in_64ths() {
    assert_eq!(written(&LINK, &NODES, 0, 64).0, 4);
    let short = raw::write_sheet(&LINK, &NODES, 0, &mut [BYTE; 100]);
    assert_eq!(short, Err(Refusal::Weight));
    let words = [&LINK[..], &NODES, &[0, 16, 2, 1, 0]].concat();
    assert_eq!(number(bytes(&words)), 4);
    assert_eq!(number(longer(&bytes(&words), 64)), 4);
    assert_eq!(number(longer(&bytes(&words), 256)), 0);
    // the link alone is at fault: -32 is on both grids
    let half = [7, 7, 0x3F00_0000, 1];
    assert_eq!(written(&half, &NODES, 0, 64).0, 0);
}

// Right after 1, and before all else.
#[test]
fn refused_14() {
    for unit in [0, 1, 32, 63, 65, 128, 255, 257, 512, 64 << 8, 1 << 24, NONE] {
        assert_eq!(written(&LINK, &NODES, 0, unit).0, 14, "{unit}");
        assert_eq!(number(longer(&bytes(&A), unit)), 14, "{unit}");
    }
    assert_eq!(written(&LINK, &NODES, 7, 128).0, 14); // 2
    assert_eq!(written(&[7, 7, 1, 9], &NODES, 0, 128).0, 14); // 3 and 4
    assert_eq!(written(&LINK, &NODES[3..], 0, 128).0, 1); // the sum of link counts
    assert_eq!(written(&LINK[1..], &NODES, 7, 128).0, 1);
    // and as bytes
    for (place, word) in [(36, 7), (3, 9), (2, 1), (31, 1)] {
        assert_eq!(number(longer(&a_with(place, word), 128)), 14);
    }
    for (place, word) in [
        (20, 3),
        (21, 2),
        (22, 1),
        (32, 4),
        (33, 64),
        (34, 5),
        (35, 4),
    ] {
        assert_eq!(number(longer(&a_with(place, word), 128)), 1);
    }
    let more = NODE_LIMIT + 1;
    let large = bytes(&[vec![0; 3 * more as usize], vec![0, 0, more, 0, NONE]].concat());
    assert_eq!(number(longer(&large, 128)), 14);
    assert_eq!(number(longer(&large, 64)), 0);
}

// Every call on a sheet whose unit is 128: 14, and nothing changed.
#[test]
fn every_call_refuses_another_unit() {
    let (bad, good) = (longer(&a_with(36, 7), 128), bytes(&A));
    assert_eq!(ffi::read_sheet(&bad), 14);
    let mut kept = [11; 4];
    let [a, b, c, d] = &mut kept;
    assert_eq!(ffi::unit(&bad, a), 14);
    assert_eq!(ffi::sheet_counts(&bad, a, b, c, d), 14);
    let (mut work, mut result) = ([11; 800], [BYTE; 500]);
    assert_eq!(ffi::shortest_distance(&bad, &mut work, &mut result, a), 14);
    for n in [0, 1, 2, 64, 65] {
        let told = ffi::shortest_path(&bad, n, &mut work, &mut result, a, b, c);
        assert_eq!(told, 14);
    }
    assert_eq!(ffi::split(&bad, 3, &mut result, a, b), 14);
    let (mut run, mut cost) = ([11; 4], 11);
    let told = ffi::reading(&bad, 65, &result, 3, 2, 0, &mut run, a, &mut cost, b);
    assert_eq!((told, run, cost), (14, [11; 4], 11));
    assert_eq!(kept, [11; 4]);
    let mut sizes = [11; 2];
    let [slots, size] = &mut sizes;
    assert_eq!(ffi::areas(&bad, 65, slots, size), 14);
    assert_eq!(ffi::sheet_rows_bytes(&bad, size), 14);
    assert_eq!(ffi::sheet_to_rows(&bad, &mut result, size), 14);
    for (first, second) in [(&bad, &good), (&good, &bad), (&bad, &bad)] {
        assert_eq!(ffi::two_probes(first, second, &mut result, size), 14);
    }
    assert_eq!(sizes, [11; 2]);
    assert!(work.iter().all(|&word| word == 11));
    assert!(result.iter().all(|&byte| byte == BYTE));
}

// The same limit on |k| in either unit.
#[test]
fn the_grid_of_256ths() {
    let limit = WEIGHT_LIMIT;
    let of = |units: i32, unit: Unit| units as f32 / unit.count() as f32;
    for unit in UNITS {
        let read = |weight: f32| {
            let as_link = number(longer(&a_with(2, weight.to_bits()), unit.count()));
            let as_final = number(longer(&a_with(31, weight.to_bits()), unit.count()));
            assert_eq!(as_link, as_final, "{weight}");
            as_link
        };
        for units in -limit..=limit {
            assert_eq!(read(of(units, unit)), 0, "{units}");
            let between = of(2 * units + 1, unit) / 2.0;
            assert_eq!(read(between), 4, "{between}");
        }
        for off in [
            of(limit + 1, unit),
            of(-limit - 1, unit),
            of(2 * limit, unit),
            -0.0,
            f32::NAN,
            f32::NEG_INFINITY,
            f32::MAX,
            f32::from_bits(1),
        ] {
            assert_eq!(read(off), 4, "{off}");
        }
        assert_eq!(read(BARRED), 0);
    }
    assert_eq!(
        (of(limit, Unit::Of64), of(limit, Unit::Of256)),
        (128.0, 32.0)
    );
}

#[test]
fn a_in_either_unit() {
    for (unit, due, least) in [
        (Unit::Of64, [112, 112, 144], [0, 64, 32, 80]),
        (Unit::Of256, [448, 448, 576], [0, 256, 128, 320]),
    ] {
        let (a, plain) = (a_in(unit), sheet_a());
        assert_eq!((a.bytes().len(), a.unit()), (152, unit));
        assert_eq!(
            (plain.unit(), plain.trailer()),
            (Unit::Of64, Trailer::Short)
        );
        assert_eq!(costs(&a, 3), due);
        let numbers = |sheet: &Sheet, n| {
            let listed = readings(sheet, n).into_iter();
            listed.map(|reading| reading.1).collect::<Vec<_>>()
        };
        for n in 0..=64 {
            assert_eq!(numbers(&a, n), numbers(&plain, n));
            let taken = [&a, &plain].map(|sheet| list(sheet, n).unwrap().taken());
            assert_eq!(taken[0], taken[1]);
        }
        assert_eq!(distances(&a), distances(&plain));
        let (values, result) = distance_bytes(&a);
        let told: Vec<_> = (0..values)
            .map(|node| raw::distance_in(&result, values, node, unit).unwrap())
            .collect();
        assert_eq!(told, least.map(Some));
    }
}

// Four bytes longer by the unit, behind the other five fields of the trailer.
#[test]
fn answers_keep_the_trailer() {
    let plain = sheet_a();
    for unit in UNITS {
        let a = a_in(unit);
        for n in 0..=64 {
            let (short, long) = (list(&plain, n).unwrap(), list(&a, n).unwrap());
            let words = &short.result()[short.machine().len()..];
            let machine = longer(short.machine(), unit.count());
            assert_eq!(long.machine(), machine);
            assert_eq!(long.result(), [&machine, words].concat());
            let machine = Sheet::read(machine).unwrap();
            assert_eq!((machine.unit(), machine.trailer()), (unit, Trailer::Long));
            assert_eq!(again(&machine), machine);
        }
        assert_eq!(again(&a), a);
        assert_eq!(a.start(), plain.start());
        assert!(a.links().eq(plain.links()) && a.finals().eq(plain.finals()));
    }
}

#[test]
fn areas_by_the_trailer() {
    let plain = bytes(&A);
    for unit in UNITS {
        let a = longer(&plain, unit.count());
        for n in 0..=64 {
            let (short, long) = (raw::areas(&plain, n).unwrap(), raw::areas(&a, n).unwrap());
            assert_eq!((long.slots, long.bytes), (short.slots, short.bytes + 4));
            assert_eq!(raw::areas_of(4, 5, 1, n), Ok(long));
            let mut work = vec![0; long.words()];
            let mut result = vec![BYTE; long.bytes];
            let listed = raw::shortest_path(&a, n, &mut work, &mut result).unwrap();
            let length = listed.result_len(Trailer::Long);
            assert!(result[length..].iter().all(|&byte| byte == BYTE));
            let mut result = vec![BYTE; length - 1];
            let told = raw::shortest_path(&a, n, &mut work, &mut result);
            assert_eq!(told, Err(Refusal::ResultArea));
            assert!(result.iter().all(|&byte| byte == BYTE));
        }
    }
    let counts = raw::sheet_counts(&plain).unwrap();
    assert_eq!(
        [148, 152].map(|bytes| counts.trailer(bytes)),
        [Trailer::Short, Trailer::Long]
    );
}

#[test]
fn no_nodes() {
    for unit in UNITS {
        let none = longer(&bytes(&[0, 0, 0, 0, NONE]), unit.count());
        let sheet = Sheet::read(none.clone()).unwrap();
        assert_eq!(
            (none.len(), sheet.node_count(), sheet.unit()),
            (24, 0, unit)
        );
        assert_eq!(Sheet::write_in(&[], &[], None, unit), Ok(sheet.clone()));
        for n in 0..=64 {
            let list = list(&sheet, n).unwrap();
            assert_eq!((list.len(), list.taken()), (0, 0));
            assert_eq!(list.result(), none);
            let mut work = vec![0; raw::areas(&none, n).unwrap().words()];
            let short = raw::shortest_path(&none, n, &mut work, &mut [BYTE; 23]);
            assert_eq!(short, Err(Refusal::ResultArea));
            assert!(raw::shortest_path(&none, n, &mut work, &mut [BYTE; 24]).is_ok());
        }
        assert_eq!(raw::areas(&none, 0).unwrap().bytes, 24);
        assert_eq!(raw::areas(&none, 1).unwrap().bytes, 24);
        assert_eq!(distances(&sheet).unwrap(), []);
        for length in (0..20).chain(21..24) {
            assert_eq!(number(none[..length].to_vec()), 1);
        }
        assert_eq!(number(none[..20].to_vec()), 0); // the sheet without nodes of the shorter trailer
    }
}

// Offset of links, offset of nodes, node count, link count, start, unit.
#[test]
fn each_field_of_the_longer_trailer() {
    let a = longer(&bytes(&A), 256);
    for (field, word, told) in [
        (0, 4, 1),
        (1, 64, 1),
        (1, 84, 1),
        (2, 5, 1),
        (3, 4, 1),
        (3, 1 << 28, 1),
        (4, 4, 2),
        (4, NONE, 0),
        (5, 64, 0),
        (5, 0, 14),
        (5, 128, 14),
    ] {
        let mut changed = a.clone();
        changed[128 + 4 * field..132 + 4 * field].copy_from_slice(&u32::to_le_bytes(word));
        assert_eq!(number(changed), told, "{field} {word}");
    }
    for length in (0..152).filter(|&length| length != 148) {
        assert_eq!(number(a[..length].to_vec()), 1, "{length}");
    }
    assert_eq!(number(a[1..].to_vec()), 1);
    assert_eq!(number(a[4..].to_vec()), 1);
    assert_eq!(number([a, vec![0; 4]].concat()), 1);
}

// By sizes alone, written apart from the library.
fn laid_out(sheet: &[u8], trailer: usize) -> bool {
    let Some(at) = sheet.len().checked_sub(trailer) else {
        return false;
    };
    let field = |i: usize| {
        let bytes = sheet[at + 4 * i..at + 4 * i + 4].try_into().unwrap();
        u32::from_le_bytes(bytes) as usize
    };
    field(0) == 0 && field(1) == 16 * field(3) && at == 16 * field(3) + 12 * field(2)
}

// Fields that are easily taken for others: few nodes and links, labels and marks of small numbers.
#[test]
fn under_one_trailer_alone() {
    let mut random = Random(20);
    let (mut short, mut long, mut neither) = (0, 0, 0);
    for _ in 0..200_000 {
        let words: Vec<u32> = (0..5 + random.below(12))
            .map(|_| [0, 0, 0, 1, 1, 2, 16, 32, 64, 256, NONE][random.below(11) as usize])
            .collect();
        let sheet = bytes(&words);
        let under = [20, 24].map(|trailer| laid_out(&sheet, trailer));
        match under {
            [true, true] => panic!("{words:?}"),
            [true, false] => short += 1,
            [false, true] => long += 1,
            [false, false] => neither += 1,
        }
        match Sheet::read(sheet) {
            Ok(sheet) => assert_eq!(sheet.trailer() == Trailer::Long, under[1]),
            Err(refusal) => {
                assert!(refusal == Refusal::Layout || under[0] || under[1]);
                assert!(refusal != Refusal::Unit || under[1]);
            }
        }
    }
    assert!(short > 50 && long > 50 && neither > 1000, "{short} {long}");
}

fn counts_of(list: &List) -> Listed {
    let machine = Sheet::read(list.machine()).unwrap();
    Listed {
        states: machine.node_count(),
        links: machine.link_count(),
        taken: list.taken(),
    }
}

// Behind the shorter trailer the first word of an answer may be 256.
#[test]
fn a_word_is_no_unit() {
    let mut links = vec![link(0, 7, 1.0, 1); 257];
    links[256].weight = 0.5;
    let sheet = Sheet::write(&links, &[None, Some(0.0)], Some(0)).unwrap();
    let list = list(&sheet, 1).unwrap();
    assert_eq!(list.result().len(), list.machine().len() + 4);
    assert_eq!(list.result()[60..], 256u32.to_le_bytes());
    assert_eq!(readings(&sheet, 1), [(32, vec![256])]);
    let machine = Sheet::read(list.machine()).unwrap();
    assert_eq!(machine.trailer(), Trailer::Short);
    // these very bytes are a sheet, too, which is not what was asked for
    let whole = Sheet::read(list.result()).unwrap();
    assert_eq!(whole.unit(), Unit::Of256);
    // of the sheet with the longer trailer the answer is 4 bytes longer, so that this one is none
    let other = Sheet::read(longer(sheet.bytes(), 256)).unwrap();
    let listed = counts_of(&list);
    assert_eq!((listed.states, listed.links), (2, 1));
    assert_eq!(raw::readings(list.result(), 1, listed), Ok(1));
    let told = raw::reading(other.bytes(), 1, list.result(), listed, 0, &mut [0; 2]);
    assert_eq!(told, Err(Refusal::NoAnswer));
}

// Without the sheet only the bytes of the shorter trailer can be asked for.
#[test]
fn answers_cut_off() {
    let a = a_in(Unit::Of256);
    for n in [0, 1, 2, 3, 64] {
        let list = list(&a, n).unwrap();
        let listed = counts_of(&list);
        let whole = list.result();
        let length = whole.len();
        assert_eq!(length, listed.result_len(Trailer::Long));
        for room in 0..=length {
            let part = &whole[..room];
            let count = raw::readings(part, n, listed);
            let due = if room + 4 < length {
                Err(Refusal::NoAnswer)
            } else {
                Ok(list.len() as u32)
            };
            assert_eq!(count, due);
            let told = raw::reading(a.bytes(), n, part, listed, 0, &mut [0; 4]);
            match list.reading(0) {
                Some(first) if room == length => assert_eq!(told.unwrap().cost, first.cost()),
                None if room == length => assert_eq!(told, Err(Refusal::Absent)),
                _ => assert_eq!(told, Err(Refusal::NoAnswer)),
            }
            // 30 comes before 31
            let past = raw::reading(a.bytes(), n, part, listed, 64, &mut [0; 4]);
            let due = [Refusal::NoAnswer, Refusal::Absent][usize::from(room == length)];
            assert_eq!(past, Err(due));
        }
    }
}

// Each byte of the answer for n flipped: how often a reading is told, and how often refused. What is told is a reading of the sheet at its
// cost in the sheet's unit.
fn damaged_answers(sheet: &Sheet, n: u32) -> (u32, u32) {
    let list = list(sheet, n).unwrap();
    let listed = counts_of(&list);
    let (mut told, mut refused) = (0, 0);
    for at in 0..list.result().len() {
        for flip in [1, 2, 4, 0x10, 0x80, 0xFF] {
            let mut damaged = list.result().to_vec();
            damaged[at] ^= flip;
            for k in 0..n {
                let mut run = [0; 3];
                match raw::reading(sheet.bytes(), n, &damaged, listed, k, &mut run) {
                    Ok(back) => {
                        let walked = walked(sheet, &run[..back.links]);
                        assert_eq!(walked, Some((back.cost, back.end)));
                        told += 1;
                    }
                    Err(Refusal::NoAnswer | Refusal::Absent) => refused += 1,
                    Err(other) => panic!("{other}"),
                }
            }
        }
    }
    (told, refused)
}

#[test]
fn every_byte_damaged() {
    let links = [
        link(0, 1, 0.00390625, 1),
        link(0, 2, -0.00390625, 1),
        link(1, 3, 31.99609375, 2),
        link(1, 4, BARRED, 2),
    ];
    let finals = [None, Some(0.5), Some(-32.0)];
    let sheet = Sheet::write_in(&links, &finals, Some(0), Unit::Of256).unwrap();
    for n in [1, 2, 5] {
        let (told, refused) = damaged_answers(&sheet, n);
        assert!(told > 0 && refused > 0, "{told} {refused}");
    }
}

#[test]
fn a_distance_in_each_unit() {
    let links = [link(0, 1, 1.75, 1), link(1, 2, 0.00390625, 3)];
    let sheet = Sheet::write_in(&links, &[None; 4], Some(0), Unit::Of256).unwrap();
    let (values, result) = distance_bytes(&sheet);
    let told = |unit| {
        (0..values)
            .map(|node| raw::distance_in(&result, values, node, unit))
            .collect::<Vec<_>>()
    };
    let fine = [Some(0), Some(448), None, Some(449)];
    assert_eq!(told(Unit::Of256), fine.map(Ok));
    let coarse = [Ok(Some(0)), Ok(Some(112)), Ok(None), Err(Refusal::NoAnswer)];
    assert_eq!(told(Unit::Of64), coarse);
    let plain: Vec<_> = (0..values)
        .map(|node| raw::distance(&result, values, node))
        .collect();
    assert_eq!(plain, coarse);
    // 14 comes before 30 and 31, and nothing changes
    for unit in [0, 63, 128, 257, NONE] {
        for (room, node) in [(result.len(), 0), (0, 0), (result.len(), values)] {
            let (mut reached, mut cost) = (11, 12);
            let told =
                ffi::distance_in(&result[..room], values, node, unit, &mut reached, &mut cost);
            assert_eq!((told, reached, cost), (14, 11, 12));
        }
    }
    for unit in UNITS {
        let cut = raw::distance_in(&result[1..], values, NONE, unit);
        assert_eq!(cut, Err(Refusal::NoAnswer));
        let past = raw::distance_in(&result, values, values, unit);
        assert_eq!(past, Err(Refusal::Absent));
    }
}

// As many units as in 64ths, so that every sum is exact.
#[test]
fn the_longest_chain() {
    let links: Vec<Link> = chain(NODE_LIMIT, 32.0).links().collect();
    let mut finals = vec![None; NODE_LIMIT as usize];
    finals[NODE_LIMIT as usize - 1] = Some(32.0);
    let sheet = Sheet::write_in(&links, &finals, Some(0), Unit::Of256).unwrap();
    let along: Vec<u32> = (0..NODE_LIMIT - 1).collect();
    for n in [1, 2, 64] {
        assert_eq!(readings(&sheet, n), [(1 << 24, along.clone())]);
    }
    let list = list(&sheet, 1).unwrap();
    let cost = list.reading(0).unwrap().cost_with_unit();
    assert_eq!(cost.to_string(), "65536");
    let last = distances(&sheet).unwrap().pop();
    assert_eq!(last, Some(Some(32.0 * (NODE_LIMIT - 1) as f32)));
}

#[test]
fn no_rows() {
    for unit in UNITS {
        let a = a_in(unit);
        assert_eq!(a.to_rows(), Err(Refusal::NoRows));
        assert_eq!(raw::sheet_rows_bytes(a.bytes()), Err(Refusal::NoRows));
        let (mut size, mut result) = (11, [BYTE; 400]);
        let told = ffi::sheet_to_rows(a.bytes(), &mut result, &mut size);
        assert_eq!((told, size, result), (9, 11, [BYTE; 400]));
        assert_eq!(a.to_string(), "refused 9: a sheet that has no rows");
        assert_eq!(a.to_string().parse::<Sheet>(), Err(Refusal::Rows));
        // 1 to 4 come before
        for (place, word, told) in [(21, 2, 1), (36, 4, 2), (3, 4, 3), (2, 1, 4)] {
            let damaged = longer(&a_with(place, word), unit.count());
            let refused = raw::sheet_rows_bytes(&damaged).unwrap_err();
            assert_eq!(refused.number(), told);
        }
    }
    let of_rows: Sheet = sheet_a().to_string().parse().unwrap();
    assert_eq!(
        (of_rows.trailer(), of_rows.unit()),
        (Trailer::Short, Unit::Of64)
    );
}

#[test]
fn two_probes_of_one_unit() {
    let plain = sheet_a();
    let both = two_probes(&plain, &plain).unwrap();
    let [coarse, fine] = UNITS.map(a_in);
    for (first, second, trailer) in [
        (&plain, &coarse, None),
        (&coarse, &plain, Some(64)),
        (&coarse, &coarse, Some(64)),
        (&fine, &fine, Some(256)),
    ] {
        let told = two_probes(first, second).unwrap();
        let due = match trailer {
            None => both.bytes().to_vec(),
            Some(unit) => longer(both.bytes(), unit),
        };
        assert_eq!(told.bytes(), due);
        // as long as it is, and not a byte shorter
        let mut result = vec![BYTE; due.len()];
        let (one, other) = (first.bytes(), second.bytes());
        assert_eq!(raw::two_probes(one, other, &mut result), Ok(due.len()));
        assert_eq!(result, due);
        let short = raw::two_probes(one, other, &mut result[1..]);
        assert_eq!(short, Err(Refusal::ResultArea));
    }
    let twice = two_probes(&fine, &fine).unwrap();
    assert_eq!(costs(&twice, 64), [896, 896, 1152]);
}

// 12 goes by units: 64 and 64 are off the grid of 256ths each, 32 and a 256th together.
#[test]
fn sums_by_the_unit() {
    let of = |weight: f32, unit: Unit| {
        let links = [link(0, 7, weight, 1)];
        Sheet::write_in(&links, &[None, Some(0.0)], Some(0), unit).unwrap()
    };
    let number = |one: f32, other: f32, unit: Unit| {
        let both = two_probes(&of(one, unit), &of(other, unit));
        both.map_or_else(Refusal::number, |_| 0)
    };
    assert_eq!(number(32.0, 0.00390625, Unit::Of256), 12);
    assert_eq!(number(-32.0, -0.00390625, Unit::Of256), 12);
    assert_eq!(number(31.99609375, 0.00390625, Unit::Of256), 0);
    assert_eq!(number(32.0, -0.00390625, Unit::Of256), 0);
    assert_eq!(number(16.0, 16.0, Unit::Of256), 0);
    assert_eq!(number(32.0, 32.0, Unit::Of64), 0);
    assert_eq!(number(32.0, 32.0, Unit::Of256), 12);
    assert_eq!(number(128.0, 0.015625, Unit::Of64), 12);
}

// Refused with this number, and nothing changed.
#[track_caller]
fn refused(first: &[u8], second: &[u8], number: u32) {
    let (mut result, mut size) = ([BYTE; 500], 11);
    let told = ffi::two_probes(first, second, &mut result, &mut size);
    assert_eq!((told, size), (number, 11));
    assert!(result.iter().all(|&byte| byte == BYTE));
}

// Refusals 1 to 6 on Sheet A; with a word more they have the longer trailer.
fn damaged() -> [(u32, Vec<u8>); 6] {
    let more = NODE_LIMIT + 1;
    let large = [vec![0; 3 * more as usize], vec![0, 0, more, 0, NONE]].concat();
    [
        (1, a_with(21, 2)),
        (2, a_with(36, 4)),
        (3, a_with(3, 4)),
        (4, a_with(2, f32::NAN.to_bits())),
        (5, bytes(&large)),
        (6, a_with(3, 0)),
    ]
}

#[test]
fn two_probes_of_unequal_units() {
    let plain = bytes(&A);
    let [coarse, fine] = [64, 256].map(|unit| longer(&plain, unit));
    for (first, second) in [
        (&plain, &fine),
        (&fine, &plain),
        (&coarse, &fine),
        (&fine, &coarse),
    ] {
        refused(first, second, 14);
        let sheets = [first, second].map(|bytes| Sheet::read(bytes.clone()).unwrap());
        assert_eq!(two_probes(&sheets[0], &sheets[1]), Err(Refusal::Unit));
    }
    for (number, sheet) in damaged() {
        let [coarse_bad, fine_bad] = [64, 256].map(|unit| longer(&sheet, unit));
        // all of the first's come before, and of the second's 1 alone
        for (bad, other) in [(&sheet, &fine), (&coarse_bad, &fine), (&fine_bad, &plain)] {
            refused(bad, other, number);
            refused(other, bad, if number == 1 { 1 } else { 14 });
        }
        // units that are equal are none of its faults
        refused(&fine, &fine_bad, number);
        refused(&plain, &coarse_bad, number);
        // the second's own 14
        let own = longer(&sheet, 128);
        refused(&plain, &own, if number == 1 { 1 } else { 14 });
        refused(&own, &plain, if number == 1 { 1 } else { 14 });
    }
    // before 10, 11 and 12
    let zero = longer(&a_with(0, 0), 256);
    refused(&plain, &zero, 14);
    refused(&fine, &zero, 10);
    refused(&[0; 19], &fine, 1);
    refused(&fine, &[0; 23], 1);
}

#[test]
fn parts_keep_the_trailer() {
    let plain = sheet_a();
    for unit in UNITS {
        let a = a_in(unit);
        for c in [0, 3] {
            let (whole, parts) = (split(&plain, c).unwrap(), split(&a, c).unwrap());
            for (short, long) in [(&whole.first, &parts.first), (&whole.second, &parts.second)] {
                let due = longer(short.sheet().bytes(), unit.count());
                assert_eq!(long.sheet().bytes(), due);
                assert_eq!(long.sheet().unit(), unit);
                assert!(long.numbers().eq(short.numbers()));
            }
            // four pieces without a gap, in just as many bytes as are named
            let length = raw::split_len(4, 5, Trailer::Long);
            assert_eq!(length, raw::split_len(4, 5, Trailer::Short) + 8);
            let mut area = vec![BYTE; length];
            let told = raw::split(a.bytes(), c, &mut area).unwrap();
            let numbers = |words: std::ops::Range<u32>| bytes(&words.collect::<Vec<_>>());
            let due = [
                parts.first.sheet().bytes(),
                &numbers(0..told.first),
                parts.second.sheet().bytes(),
                &numbers(told.first..5),
            ];
            assert_eq!(area, due.concat());
            let (long, second) = (Trailer::Long, due[0].len() + due[1].len());
            assert_eq!(
                (told.first_len(c, long), told.second_at(c, long)),
                (due[0].len(), second)
            );
            assert_eq!(told.second_len(4, c, long), due[2].len());
            let short = raw::split(a.bytes(), c, &mut area[1..]);
            assert_eq!(short, Err(Refusal::ResultArea));
        }
        assert_eq!(split(&a, 1), Err(Refusal::Narrow));
    }
}

#[test]
fn costs_of_parts() {
    let fine = split(&a_in(Unit::Of256), 3).unwrap();
    assert_eq!(costs(fine.first.sheet(), 3), [320, 320, 448]);
    assert_eq!(readings(fine.second.sheet(), 3), [(128, vec![])]);
}

// Against an enumeration of all readings.
#[test]
fn drawn_machines() {
    let mut random = Random(22);
    for round in 0..3000 {
        let nodes = 2 + random.below(6);
        let links = random.below(20);
        let spread = [1, 3, WEIGHT_LIMIT as u32][round % 3];
        let unit = UNITS[round / 3 % 2];
        let mut machine = match round / 6 % 2 {
            0 => weighed(&mut random, nodes, links, |r| r.weight_in(spread, unit)),
            _ => weighed(&mut random, nodes, links, |r| {
                r.weight_or_barred_in(spread, unit)
            }),
        };
        machine.said = Some(unit);
        check(&machine, [0, 1, 2, 3, 5, 8, 64]);
    }
    for spread in [1, 8, WEIGHT_LIMIT as u32] {
        for unit in UNITS {
            let mut machine = weighed(&mut random, 14, 75, |r| r.weight_in(spread, unit));
            (machine.start, machine.said) = (0, Some(unit));
            check(&machine, [1, 2, 7, 63, 64]);
        }
    }
}

// The same whole numbers in either unit give the same answers but for the trailer's last word and the weights, a fourth as large.
#[test]
fn whole_numbers_decide() {
    let mut random = Random(23);
    for _ in 0..500 {
        let (nodes, links) = (2 + random.below(6), random.below(20));
        let mut machine = weighed(&mut random, nodes, links, |r| r.weight(64));
        machine.said = Some(Unit::Of64);
        let coarse = machine.sheet();
        for link in &mut machine.links {
            link.weight /= 4.0;
        }
        for weight in machine.finals.iter_mut().flatten() {
            *weight /= 4.0;
        }
        machine.said = Some(Unit::Of256);
        let fine = machine.sheet();
        for n in [0, 1, 2, 3, 64] {
            assert_eq!(readings(&coarse, n), readings(&fine, n));
            let taken = [&coarse, &fine].map(|sheet| list(sheet, n).unwrap().taken());
            assert_eq!(taken[0], taken[1]);
        }
        let values = |sheet: &Sheet| -> Vec<_> {
            let told = distances(sheet).unwrap().into_iter();
            told.map(|value| value.and_then(|value| units(value, sheet.unit())))
                .collect()
        };
        assert_eq!(values(&coarse), values(&fine));
    }
}
