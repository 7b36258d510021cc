//! The sheet of what two sheets both allow: cases by hand, each refusal beside what just passes, and drawn pairs against the words of
//! the request.
#![forbid(unsafe_code)]

mod common;

use common::{a_with, bytes, chain, costs, link, readings, said, sheet_a, write, Random, A, NONE};
use yeldmur::{ffi, list, raw, two_probes, units};
use yeldmur::{Link, Refusal, Sheet, Unit, BARRED, LINK_LIMIT, NODE_LIMIT, WEIGHT_LIMIT};

const BYTE: u8 = 0xA5;

fn rows(text: &str) -> Sheet {
    text.parse().unwrap()
}

fn number(first: &Sheet, second: &Sheet) -> u32 {
    two_probes(first, second).map_or_else(Refusal::number, |_| 0)
}

// Two links of label 7 and one of label 8 to the end, in sixty-fourths 1, 2 and 5.
fn two_by_three() -> [Sheet; 2] {
    let first = "0 1 7 7 0.015625\n0 1 7 7 0.03125\n0 1 8 8 0.078125\n1 0.046875\n";
    let second = "0 2 8 8 0.15625\n0 1 7 7 0.3125\n1 2 7 7 0.46875\n1 1.5625\n2 3.125\n";
    [rows(first), rows(second)]
}

// Two nodes, the second final, with so many links of one label between them.
fn parallel(count: u32) -> Sheet {
    let links = vec![link(0, 7, 0.0, 1); count as usize];
    Sheet::write(&links, &[None, Some(0.0)], Some(0)).unwrap()
}

// A link of this weight to a node with this final weight.
fn weighed(weight: f32, last: f32) -> Sheet {
    Sheet::write(&[link(0, 7, weight, 1)], &[None, Some(last)], Some(0)).unwrap()
}

fn without_links(nodes: u32) -> Sheet {
    Sheet::write(&[], &vec![None; nodes as usize], None).unwrap()
}

#[test]
fn a_with_itself() {
    let a = sheet_a();
    let both = two_probes(&a, &a).unwrap();
    let links = [
        link(0, 1, 2.0, 5),
        link(0, 2, 1.0, 10),
        link(5, 3, 0.5, 15),
        link(5, 5, 0.0, 10),
        link(10, 4, 1.5, 15),
    ];
    let mut finals = [None; 16];
    finals[15] = Some(1.0);
    assert_eq!(both, Sheet::write(&links, &finals, Some(0)).unwrap());
    assert_eq!(both.bytes().len(), 292);
    let twice: Vec<i32> = readings(&a, 64)
        .iter()
        .map(|reading| 2 * reading.0)
        .collect();
    assert_eq!(costs(&both, 64), twice);
}

// Laid out by hand: the links stand by the node that they leave, then the first's number, then the second's.
#[test]
fn the_fields_of_two_by_three() {
    let [first, second] = two_by_three();
    let both = two_probes(&first, &second).unwrap();
    #[rustfmt::skip]
    let words = [
        7, 7, 0x3EA8_0000, 4, // links 0 and 1: 1 + 20 sixty-fourths, from node 0
        7, 7, 0x3EB0_0000, 4, // links 1 and 1: 2 + 20
        8, 8, 0x3E70_0000, 5, // links 2 and 0: 5 + 10
        7, 7, 0x3EF8_0000, 5, // links 0 and 2: 1 + 30, from node 1
        7, 7, 0x3F00_0000, 5, // links 1 and 2: 2 + 30
        3, 0, 0, 2, 0, 0, 0, 0, 0, 0, 0, 0, // nodes 0 to 3
        0, 1, 0x3FCE_0000, // node 4, final 3 + 100
        0, 1, 0x404B_0000, // node 5, final 3 + 200
        0, 80, 6, 5, 0, // trailer
    ];
    assert_eq!(both.bytes(), bytes(&words));
    assert_eq!(both.bytes().len(), 172);
    assert_eq!(costs(&both, 64), [124, 125, 218]);
}

#[test]
fn no_nodes_and_no_start() {
    let (a, none) = (sheet_a(), bytes(&[0, 0, 0, 0, NONE]));
    let empty = Sheet::read(none.clone()).unwrap();
    for (first, second) in [(&a, &empty), (&empty, &a), (&empty, &empty)] {
        assert_eq!(two_probes(first, second).unwrap().bytes(), none);
    }
    // absent where either is; nodes and links are those of before
    let absent = Sheet::read(a_with(36, NONE)).unwrap();
    let whole = two_probes(&a, &a).unwrap();
    let later = Sheet::read(a_with(36, 2)).unwrap();
    for (first, second) in [
        (&a, &absent),
        (&absent, &a),
        (&absent, &absent),
        (&later, &absent),
    ] {
        let both = two_probes(first, second).unwrap();
        assert_eq!(both.start(), None);
        assert_eq!(both.bytes()[..288], whole.bytes()[..288]);
    }
    // of starts that are not node 0
    assert_eq!(two_probes(&a, &later).unwrap().start(), Some(2));
    assert_eq!(two_probes(&later, &a).unwrap().start(), Some(8));
}

#[test]
fn parallel_links_stay_apart() {
    let both = two_probes(&parallel(2), &parallel(3)).unwrap();
    assert_eq!((both.link_count(), readings(&both, 64).len()), (6, 6));
    // in the order of the first's links, then the second's
    let first = rows("0 1 7 7 1\n0 1 7 7 2\n1\n");
    let second = rows("0 1 7 7 0.125\n0 1 7 7 0.25\n0 1 7 7 0.5\n1\n");
    let weights = |both: Sheet| both.links().map(|link| link.weight).collect::<Vec<_>>();
    let both = two_probes(&first, &second).unwrap();
    assert_eq!(weights(both), [1.125, 1.25, 1.5, 2.125, 2.25, 2.5]);
    let turned = two_probes(&second, &first).unwrap();
    assert_eq!(weights(turned), [1.125, 2.125, 1.25, 2.25, 1.5, 2.5]);
}

#[test]
fn labels_of_one_alone_make_no_link() {
    let both = two_probes(&rows("0 1 7 7\n1\n"), &rows("0 1 8 8\n1\n")).unwrap();
    assert_eq!((both.node_count(), both.link_count()), (4, 0));
    assert_eq!(both.final_weight(3), Some(0.0));
    assert!(list(&both, 64).unwrap().is_empty());
    // one final alone is not enough
    let both = two_probes(&rows("0 1 7 7\n1\n"), &rows("0 1 7 7\n0\n")).unwrap();
    let finals: Vec<_> = both.finals().collect();
    assert_eq!(finals, [None, None, Some(0.0), None]);
}

// The largest label, and two that differ in their highest bit alone.
#[test]
fn every_bit_of_a_label_counts() {
    let of = |label: u32| {
        let links = [link(0, label, 0.5, 1)];
        Sheet::write(&links, &[None, Some(0.0)], Some(0)).unwrap()
    };
    for bit in 0..32 {
        let (one, other) = (of(u32::MAX), of(u32::MAX ^ 1 << bit));
        assert_eq!(two_probes(&one, &other).unwrap().link_count(), 0);
        assert_eq!(two_probes(&other, &other).unwrap().link_count(), 1);
    }
}

#[test]
fn refused_10() {
    let good = sheet_a();
    let (zero, differs) = (rows("0 1 0 0\n1\n"), rows("0 1 7 8\n1\n"));
    let zero_out = rows("0 1 7 0\n1\n");
    // on a link that no run from the start reaches, and the last of several
    let unreached = rows("1 2 7 7\n2\n0 1 7 7\n0 2 8 9\n");
    for bad in [&zero, &differs, &zero_out, &unreached] {
        for (first, second) in [(bad, &good), (&good, bad), (bad, bad)] {
            assert_eq!(two_probes(first, second), Err(Refusal::Labels));
        }
    }
    // before 11 and 12
    let beyond = "0 1 7 8 128\n45 100\n";
    assert_eq!(number(&rows(beyond), &rows(beyond)), 10);
    // a label 0 that meets none is refused, too
    let empty = Sheet::write(&[], &[], None).unwrap();
    assert_eq!(number(&zero, &empty), 10);
    assert_eq!(number(&empty, &differs), 10);
}

#[test]
fn refused_11() {
    assert_eq!(number(&without_links(46), &without_links(46)), 11);
    for (first, second, told) in [
        (45, 45, 0),
        (NODE_LIMIT, 1, 0),
        (1, NODE_LIMIT, 0),
        (2, NODE_LIMIT / 2, 0),
        (NODE_LIMIT, 2, 11),
        (2, NODE_LIMIT / 2 + 1, 11),
        (NODE_LIMIT, NODE_LIMIT, 11),
        (NODE_LIMIT, 0, 0),
    ] {
        let sheets = [first, second].map(without_links);
        assert_eq!(number(&sheets[0], &sheets[1]), told, "{first} x {second}");
    }
    let both = two_probes(&parallel(128), &parallel(128)).unwrap();
    assert_eq!(both.bytes().len(), 262_144 + 12 * 4 + 20);
    assert_eq!(list(&both, 64).unwrap().len(), 64);
    for (first, second, told) in [
        (129, 128, 11),
        (128, 129, 11),
        (LINK_LIMIT, 1, 0),
        (1, LINK_LIMIT, 0),
        (LINK_LIMIT, 2, 11),
        (LINK_LIMIT, LINK_LIMIT, 11),
        (LINK_LIMIT, 0, 0),
    ] {
        let sheets = [first, second].map(parallel);
        assert_eq!(number(&sheets[0], &sheets[1]), told, "{first} x {second}");
    }
}

// Of several labels all pairs count together, and a label of one sheet alone counts none.
#[test]
fn refused_11_by_labels_together() {
    let of = |counts: &[(u32, u32)]| {
        let links = counts
            .iter()
            .flat_map(|&(label, count)| (0..count).map(move |_| link(0, label, 0.0, 1)));
        let links: Vec<Link> = links.collect();
        Sheet::write(&links, &[None, None], None).unwrap()
    };
    let first = of(&[(3, 100), (5, 64), (9, 5000)]);
    assert_eq!(number(&first, &of(&[(3, 123), (4, 9000), (5, 63)])), 0);
    let most = of(&[(3, 125), (5, 60), (8, 1)]); // 12,500 and 3,840
    assert_eq!(two_probes(&first, &most).unwrap().link_count(), 16_340);
    assert_eq!(number(&first, &of(&[(3, 125), (5, 61)])), 11); // 12,500 and 3,904
}

#[test]
fn refused_12() {
    let unit = 1.0 / 64.0;
    for (one, other, told) in [
        (128.0, unit, 12),
        (-128.0, -unit, 12),
        (128.0, 128.0, 12),
        (-128.0, -128.0, 12),
        (64.0 + unit, 64.0, 12),
        (128.0, 0.0, 0),
        (128.0, -unit, 0),
        (64.0, 64.0, 0),
        (-64.0, -64.0, 0),
        (127.984375, unit, 0),
        (BARRED, 128.0, 0),
        (BARRED, -128.0, 0),
        (BARRED, BARRED, 0),
    ] {
        for (one, other) in [(one, other), (other, one)] {
            let links = [weighed(one, 0.0), weighed(other, 0.0)];
            let finals = [weighed(0.0, one), weighed(0.0, other)];
            assert_eq!(number(&links[0], &links[1]), told, "{one} and {other}");
            assert_eq!(number(&finals[0], &finals[1]), told, "{one} and {other}");
        }
    }
    // on nodes that no run reaches
    let unreached = |label: u32| {
        let links = [link(0, label, 0.0, 1)];
        Sheet::write(&links, &[None, None, Some(100.0)], Some(0)).unwrap()
    };
    assert_eq!(number(&unreached(7), &unreached(8)), 12);
    // labels that differ, and a final node beside one that is not: no sums
    let dear = |label: u32, finals: [Option<f32>; 2]| {
        Sheet::write(&[link(0, label, 128.0, 1)], &finals, Some(0)).unwrap()
    };
    let first = dear(7, [Some(128.0), None]);
    assert_eq!(number(&first, &dear(8, [None, None])), 0);
    assert_eq!(number(&first, &dear(7, [None, None])), 12);
    assert_eq!(number(&first, &dear(8, [None, Some(128.0)])), 12);
    // 11 comes before
    let chain = chain(46, 128.0);
    assert_eq!(number(&chain, &chain), 11);
}

#[test]
fn sums_of_what_cancels_and_what_is_barred() {
    let both = two_probes(&weighed(128.0, -0.5), &weighed(-128.0, 0.5)).unwrap();
    assert_eq!(raw::link(both.bytes(), 0), Ok([7, 7, 0, 3]));
    assert_eq!(raw::node(both.bytes(), 3), Ok([0, 1, 0]));
    assert_eq!(readings(&both, 64), [(0, vec![0])]);
    let barred = BARRED.to_bits();
    let both = two_probes(&weighed(BARRED, 1.0), &weighed(-128.0, BARRED)).unwrap();
    assert_eq!(raw::link(both.bytes(), 0), Ok([7, 7, barred, 3]));
    assert_eq!(raw::node(both.bytes(), 3), Ok([0, 1, barred]));
    assert!(list(&both, 64).unwrap().is_empty());
    // what is barred in one alone bars the pair
    let both = two_probes(&weighed(BARRED, 1.0), &weighed(1.0, 1.0)).unwrap();
    assert_eq!(both.link(0).unwrap().weight, BARRED);
    assert!(list(&both, 64).unwrap().is_empty());
}

// One of each number from 1 to 6, on Sheet A.
fn damaged() -> [Vec<u8>; 6] {
    let more = NODE_LIMIT + 1;
    let large = [vec![0; 3 * more as usize], vec![0, 0, more, 0, NONE]].concat();
    [
        vec![0; 19],
        a_with(36, 4),
        a_with(3, 4),
        a_with(2, f32::NAN.to_bits()),
        bytes(&large),
        a_with(3, 0),
    ]
}

// Refused with this number, and nothing changed.
#[track_caller]
fn refused(first: &[u8], second: &[u8], number: u32) {
    let (mut result, mut size) = ([BYTE; 500], 11);
    let told = ffi::two_probes(first, second, &mut result, &mut size);
    assert_eq!((told, size), (number, 11));
    assert!(result.iter().all(|&byte| byte == BYTE));
}

#[test]
fn all_tests_of_the_first_come_before_those_of_the_second() {
    let (a, zero) = (bytes(&A), a_with(0, 0));
    for (first, sheet) in damaged().iter().enumerate() {
        let number = first as u32 + 1;
        refused(sheet, &a, number);
        refused(&a, sheet, number);
        // before 10, whichever sheet has the label
        refused(&zero, sheet, number);
        refused(sheet, &zero, number);
        for other in damaged() {
            refused(sheet, &other, number);
        }
    }
    refused(&zero, &a, 10);
    refused(&a, &zero, 10);
    let many = without_links(NODE_LIMIT);
    refused(many.bytes(), &a, 11);
    let dear = a_with(2, 128f32.to_bits());
    refused(&dear, &a, 12);
}

#[test]
fn results_of_every_length() {
    let [first, second] = two_by_three();
    for (first, second, length) in [
        (&first, &second, 172),
        (&second, &first, 172),
        (&sheet_a(), &sheet_a(), 292),
    ] {
        let (first, second) = (first.bytes(), second.bytes());
        let mut whole = vec![BYTE; 400];
        assert_eq!(raw::two_probes(first, second, &mut whole), Ok(length));
        for room in 0..length + 4 {
            let (mut result, mut size) = (vec![BYTE; room], 11);
            let told = ffi::two_probes(first, second, &mut result, &mut size);
            let kept = if room < length { 0 } else { length };
            assert_eq!(result[..kept], whole[..kept]);
            assert!(result[kept..].iter().all(|&byte| byte == BYTE));
            let expected = if room < length {
                (21, 11)
            } else {
                (0, length as u64)
            };
            assert_eq!((told, size), expected);
        }
    }
    // 10, 11 and 12 come before 21
    for (number, sheet) in [(10, a_with(0, 0)), (12, a_with(2, 128f32.to_bits()))] {
        let told = raw::two_probes(&sheet, &bytes(&A), &mut []);
        assert_eq!(told.unwrap_err().number(), number);
    }
    let many = parallel(129);
    let told = raw::two_probes(many.bytes(), many.bytes(), &mut []);
    assert_eq!(told, Err(Refusal::Product));
}

// Labels and weights by drawings of their own, with this unit in the trailer or none; links climb.
fn drawn(
    random: &mut Random,
    (nodes, links): (u32, u32),
    said: Option<Unit>,
    label: impl Fn(&mut Random) -> u32,
    weight: impl Fn(&mut Random) -> f32,
) -> Sheet {
    let links: Vec<Link> = (0..links)
        .map(|_| {
            let source = random.below(nodes - 1);
            let next = source + 1 + random.below(nodes - 1 - source);
            link(source, label(random), weight(random), next)
        })
        .collect();
    let finals: Vec<Option<f32>> = (0..nodes)
        .map(|_| (random.below(2) == 0).then(|| weight(random)))
        .collect();
    // none now and then
    let start = (random.below(8) > 0).then(|| random.below(nodes.div_ceil(4)));
    write(&links, &finals, start, said).unwrap()
}

// Infinity plus anything is infinity; a sum off the grid is none.
fn sum(one: f32, other: f32, unit: Unit) -> Option<f32> {
    let (Some(one), Some(other)) = (units(one, unit), units(other, unit)) else {
        return Some(BARRED);
    };
    let sum = one + other;
    (sum.abs() <= WEIGHT_LIMIT).then_some(sum as f32 / unit.count() as f32)
}

// For each pair of nodes the sum of their final weights; none at all where one is off the grid.
fn final_sums(first: &Sheet, second: &Sheet) -> Option<Vec<Option<f32>>> {
    let sums = first.finals().flat_map(|one| {
        second.finals().map(move |other| match (one, other) {
            (Some(one), Some(other)) => sum(one, other, first.unit()).map(Some),
            _ => Some(None),
        })
    });
    sums.collect()
}

// What the request says of two sheets, apart from the library.
fn judged(first: &Sheet, second: &Sheet) -> Result<Sheet, Refusal> {
    let unit = first.unit();
    if second.unit() != unit {
        return Err(Refusal::Unit);
    }
    let mut links = first.links().chain(second.links());
    if links.any(|link| link.ilabel == 0 || link.ilabel != link.olabel) {
        return Err(Refusal::Labels);
    }
    let nodes = second.node_count();
    let pairs: Vec<(Link, Link)> = first
        .links()
        .flat_map(|l| second.links().map(move |k| (l, k)))
        .filter(|(l, k)| l.ilabel == k.ilabel)
        .collect();
    if first.node_count() * nodes > NODE_LIMIT || pairs.len() > LINK_LIMIT as usize {
        return Err(Refusal::Product);
    }
    // by the first's number, then the second's; the writer puts them in the order of their sources
    let links = pairs.iter().map(|(l, k)| {
        let weight = sum(l.weight, k.weight, unit)?;
        let node = |i: u32, j: u32| i * nodes + j;
        Some(link(
            node(l.source, k.source),
            l.ilabel,
            weight,
            node(l.next, k.next),
        ))
    });
    let links: Option<Vec<Link>> = links.collect();
    let sums = links.zip(final_sums(first, second));
    let (links, finals) = sums.ok_or(Refusal::Sum)?;
    let start = first.start().zip(second.start());
    let start = start.map(|(i, j)| i * nodes + j);
    write(&links, &finals, start, said(first))
}

// For each reading its labels, its cost and its end; none where there may be more than a list has.
fn all(sheet: &Sheet) -> Option<Vec<(Vec<u32>, i32, u32)>> {
    let list = list(sheet, 64).unwrap();
    let of_all = list.readings().map(|reading| {
        let labels = reading.links().map(|link| link.ilabel).collect();
        (labels, reading.cost(), reading.end())
    });
    (list.len() < 64).then(|| of_all.collect())
}

// The readings of what both allow are the pairs of readings with the same labels, as often as there are pairs, and cost their sums.
fn one_to_one(first: &Sheet, second: &Sheet, both: &Sheet) -> usize {
    let (Some(ones), Some(others), Some(mut listed)) = (all(first), all(second), all(both)) else {
        return 0;
    };
    let mut pairs: Vec<(Vec<u32>, i32, u32)> = ones
        .iter()
        .flat_map(|one| others.iter().map(move |other| (one, other)))
        .filter(|(one, other)| one.0 == other.0)
        .map(|(one, other)| {
            let end = one.2 * second.node_count() + other.2;
            (one.0.clone(), one.1 + other.1, end)
        })
        .collect();
    pairs.sort();
    listed.sort();
    assert_eq!(listed, pairs);
    listed.len()
}

#[test]
fn drawn_pairs() {
    let mut random = Random(1);
    let (mut listed, mut sums, mut units) = (0, 0, 0);
    for round in 0..6000 {
        let spread = [1, 8, 4096, WEIGHT_LIMIT as u32][round % 4];
        let labels = 1 + random.below(3);
        let mut draw = || {
            let said = random.said();
            let unit = said.unwrap_or(Unit::Of64);
            let size = (2 + random.below(6), random.below(16));
            let label = |random: &mut Random| 1 + random.below(labels);
            let weight = |random: &mut Random| random.weight_in(spread, unit);
            let barred = |random: &mut Random| random.weight_or_barred_in(spread, unit);
            match round / 4 % 2 {
                0 => drawn(&mut random, size, said, label, weight),
                _ => drawn(&mut random, size, said, label, barred),
            }
        };
        let (first, second) = (draw(), draw());
        let both = two_probes(&first, &second);
        assert_eq!(both, judged(&first, &second));
        match both {
            Ok(both) => listed += one_to_one(&first, &second, &both),
            Err(Refusal::Unit) => units += 1,
            Err(refusal) => {
                assert_eq!(refusal, Refusal::Sum);
                sums += 1;
            }
        }
    }
    let many = listed > 2000 && sums > 500 && units > 1500;
    assert!(many, "{listed} {sums} {units}");
}

// Labels that are 0 or differ, now and then: 10 or the answer, as the request says.
#[test]
fn drawn_labels() {
    let mut random = Random(2);
    let mut refused = 0;
    for _ in 0..1000 {
        let mut draw = || {
            let links: Vec<Link> = (0..random.below(6))
                .map(|_| {
                    let ilabel = random.below(9);
                    let olabel = if random.below(9) == 0 {
                        random.below(9)
                    } else {
                        ilabel
                    };
                    let next = 1 + random.below(2);
                    Link {
                        olabel,
                        ..link(0, ilabel, 0.5, next)
                    }
                })
                .collect();
            Sheet::write(&links, &[None, None, Some(0.5)], Some(0)).unwrap()
        };
        let (first, second) = (draw(), draw());
        let both = two_probes(&first, &second);
        refused += usize::from(both == Err(Refusal::Labels));
        assert_eq!(both, judged(&first, &second));
    }
    assert!((200..800).contains(&refused), "{refused}");
}

// Machines whose product is near both limits.
#[test]
fn large_machines() {
    let mut random = Random(3);
    for (nodes, links) in [
        ((32, 64), (700, 700)),
        ((2, 1024), (16, 9000)),
        ((1000, 2), (9000, 16)),
    ] {
        let mut draw = |nodes, links| {
            let label = |random: &mut Random| 1 + random.below(40);
            drawn(&mut random, (nodes, links), None, label, |random| {
                random.weight(60)
            })
        };
        let (first, second) = (draw(nodes.0, links.0), draw(nodes.1, links.1));
        let both = two_probes(&first, &second);
        assert_eq!(both, judged(&first, &second));
        let both = both.unwrap();
        assert!(both.node_count() >= 2000 && both.link_count() > 3000);
        // what the searches make of it costs the same the other way round
        let turned = two_probes(&second, &first).unwrap();
        assert_eq!(costs(&both, 64), costs(&turned, 64));
    }
}
