//! The two parts of a sheet: cases by hand, each refusal beside what just passes, and drawn machines against the words of the request.
#![forbid(unsafe_code)]

mod common;

use common::{a_with, bytes, chain, link, readings, said, sheet_a, walked, write, Random, A, NONE};
use yeldmur::{ffi, list, raw, split};
use yeldmur::{Link, Refusal, Sheet, Trailer, Unit, BARRED, LINK_LIMIT, LIST_LIMIT, NODE_LIMIT};

const BYTE: u8 = 0xA5;

fn rows(text: &str) -> Sheet {
    text.parse().unwrap()
}

fn number(sheet: &Sheet, c: u32) -> u32 {
    split(sheet, c).map_or_else(Refusal::number, |_| 0)
}

// Three links to node 1, two on to node 2: in sixty-fourths 64, 32 and 48, then 16 and 128, and 32 at the end.
fn diamond() -> Sheet {
    rows("0 1 7 7 1\n0 1 8 8 0.5\n0 1 9 9 0.75\n1 2 7 7 0.25\n1 2 8 8 2\n2 0.5\n")
}

fn costs(sheet: &Sheet, n: u32) -> Vec<i32> {
    let list = list(sheet, n).unwrap();
    list.readings().map(|reading| reading.cost()).collect()
}

// The n least sums of one cost of each list.
fn least_sums(n: u32, low: &[i32], high: &[i32]) -> Vec<i32> {
    let mut sums: Vec<i32> = low
        .iter()
        .flat_map(|a| high.iter().map(move |b| a + b))
        .collect();
    sums.sort();
    sums.truncate(n as usize);
    sums
}

#[test]
fn the_fields_of_the_diamond() {
    let mut area = vec![BYTE; 200];
    let told = raw::split(diamond().bytes(), 1, &mut area).unwrap();
    assert_eq!((told.first, told.second), (3, 2));
    #[rustfmt::skip]
    let words = [
        7, 7, 0x3F80_0000, 1, 8, 8, 0x3F00_0000, 1, 9, 9, 0x3F40_0000, 1,
        3, 0, 0, // node 0
        0, 1, 0, // node 1, where preheat ends
        0, 48, 2, 3, 0, // trailer
        0, 1, 2, // the links' numbers in the whole
        7, 7, 0x3E80_0000, 1, 8, 8, 0x4000_0000, 1,
        2, 0, 0, // node 1, the second part's node 0
        0, 1, 0x3F00_0000, // node 2
        0, 32, 2, 2, 0, // trailer
        3, 4, // the links' numbers in the whole
    ];
    assert_eq!(area[..188], bytes(&words));
    assert!(area[188..].iter().all(|&byte| byte == BYTE));
    assert_eq!(raw::split_len(3, 5, Trailer::Short), 188);
    let short = Trailer::Short;
    let places = (told.first_len(1, short), told.second_at(1, short));
    assert_eq!(places, (92, 104));
    assert_eq!(told.second_len(3, 1, short), 76);
    let parts = split(&diamond(), 1).unwrap();
    assert_eq!(parts.first.sheet().bytes(), &area[..92]);
    assert_eq!(parts.second.sheet().bytes(), &area[104..180]);
}

#[test]
fn the_lists_of_the_diamond() {
    let whole = diamond();
    let parts = split(&whole, 1).unwrap();
    let numbers = |part: &yeldmur::Part| part.numbers().collect::<Vec<_>>();
    assert_eq!(numbers(&parts.first), [0, 1, 2]);
    assert_eq!(numbers(&parts.second), [3, 4]);
    let told = [0, 1, 2, u32::MAX].map(|link| parts.second.number(link));
    assert_eq!(told, [Some(3), Some(4), None, None]);
    assert_eq!(costs(parts.first.sheet(), 2), [32, 48]);
    assert_eq!(costs(parts.second.sheet(), 64), [48, 160]);
    assert_eq!(costs(&whole, 2), [80, 96]);
    assert_eq!(costs(&whole, 64), [80, 96, 112, 192, 208, 224]);
}

#[test]
fn readings_joined() {
    let whole = diamond();
    let parts = split(&whole, 1).unwrap();
    let (low, high) = (parts.first.sheet(), parts.second.sheet());
    let (low, high) = (list(low, 64).unwrap(), list(high, 64).unwrap());
    let join = |i, j| parts.join(low.reading(i).unwrap(), high.reading(j).unwrap());
    assert_eq!(join(0, 0), Some(vec![1, 3]));
    assert_eq!(join(2, 1), Some(vec![0, 4]));
    // of equal sheets, too
    let again = split(&whole, 1).unwrap();
    assert_eq!(
        again.join(low.reading(0).unwrap(), high.reading(1).unwrap()),
        Some(vec![1, 4])
    );
    // and of no other, though a part has links of these numbers
    let first_twice = parts.join(low.reading(0).unwrap(), low.reading(0).unwrap());
    assert_eq!(first_twice, None);
    let second_twice = parts.join(high.reading(0).unwrap(), high.reading(0).unwrap());
    assert_eq!(second_twice, None);
    let turned = parts.join(high.reading(0).unwrap(), low.reading(0).unwrap());
    assert_eq!(turned, None);
    let of_whole = list(&whole, 1).unwrap();
    assert_eq!(
        parts.join(low.reading(0).unwrap(), of_whole.reading(0).unwrap()),
        None
    );
}

#[test]
fn at_the_ends() {
    let a = sheet_a();
    let last = split(&a, 3).unwrap();
    let links: Vec<Link> = a.links().collect();
    let finals = [None, None, None, Some(0.0)];
    let expected = Sheet::write(&links, &finals, Some(0)).unwrap();
    assert_eq!(last.first.sheet(), &expected);
    let one = Sheet::write(&[], &[Some(0.5)], Some(0)).unwrap();
    assert_eq!(last.second.clone().into_sheet(), one);
    assert_eq!(last.first.numbers().len(), 5);
    assert_eq!(last.second.numbers().len(), 0);
    // c is the start, and no node is below it
    let start = split(&a, 0).unwrap();
    let one = Sheet::write(&[], &[Some(0.0)], Some(0)).unwrap();
    assert_eq!(start.first.into_sheet(), one);
    assert_eq!(start.second.sheet(), &a);
    assert!(start.second.numbers().eq(0..5));
}

#[test]
fn c_keeps_its_mark_in_the_second_part_alone() {
    for weight in [1.5, -128.0, BARRED] {
        let links = [link(0, 7, 1.0, 1), link(1, 8, 2.0, 2)];
        let finals = [None, Some(weight), Some(0.0)];
        let whole = Sheet::write(&links, &finals, Some(0)).unwrap();
        let parts = split(&whole, 1).unwrap();
        assert_eq!(parts.first.sheet().final_weight(1), Some(0.0));
        assert_eq!(parts.second.sheet().final_weight(0), Some(weight));
        assert_eq!(parts.first.sheet().link_count(), 1);
        assert_eq!(parts.second.sheet().link(0).unwrap().source, 0);
    }
}

#[test]
fn no_link_leads_to_c() {
    let whole = rows("0 1 7 7\n2 3 8 8\n3\n");
    let parts = split(&whole, 2).unwrap();
    assert!(list(parts.first.sheet(), 64).unwrap().is_empty());
    assert_eq!(list(parts.second.sheet(), 64).unwrap().len(), 1);
    assert!(list(&whole, 64).unwrap().is_empty());
}

#[test]
fn refused_13() {
    let a = sheet_a();
    for (c, told) in [(0, 0), (1, 13), (2, 13), (3, 0), (4, 13), (NONE, 13)] {
        assert_eq!(number(&a, c), told, "{c}");
    }
    // 3 in its low half
    assert_eq!(number(&a, 0x10003), 13);
    let empty = Sheet::read(bytes(&[0, 0, 0, 0, NONE])).unwrap();
    assert_eq!(number(&empty, 0), 13);
    // starts
    assert_eq!(number(&rows("1 2 7 7\n2\n"), 1), 0);
    assert_eq!(number(&rows("2 3 7 7\n3\n"), 1), 13);
    let absent = Sheet::read(a_with(36, NONE)).unwrap();
    assert_eq!(number(&absent, 3), 13);
    // marks
    for (text, c, told) in [
        ("0 1 7 7\n1 2 8 8\n1\n2\n", 1, 0),
        ("0 1 7 7\n0\n1 2 8 8\n2\n", 1, 13),
        ("0 2 7 7\n1\n2\n", 2, 13),
        ("0 1 7 7\n0 Infinity\n1\n", 1, 13),
        ("0 1 7 7\n1 2 8 8\n2\n3\n", 1, 0),
    ] {
        assert_eq!(number(&rows(text), c), told, "{text}");
    }
    // links
    for (text, c, told) in [
        ("0 1 7 7\n0 1 7 7\n1 2 7 7\n1 3 7 7\n3\n", 1, 0),
        ("0 1 7 7\n0 2 7 7\n2\n", 1, 13),
        ("0 1 7 7\n0 2 7 7 Infinity\n2\n", 1, 13),
        ("0 2 7 7\n1 3 7 7\n3\n", 2, 13),
        ("0 2 7 7\n1 2 7 7\n3\n", 2, 0),
        ("0 1 7 7\n1 3 8 8\n2 3 9 9\n3\n", 2, 13),
    ] {
        assert_eq!(number(&rows(text), c), told, "{text}");
    }
}

// Refused with this number, and nothing changed.
#[track_caller]
fn refused(sheet: &[u8], c: u32, room: usize, number: u32) {
    let (mut result, mut first, mut second) = (vec![BYTE; room], 11, 12);
    let told = ffi::split(sheet, c, &mut result, &mut first, &mut second);
    assert_eq!((told, first, second), (number, 11, 12));
    assert!(result.iter().all(|&byte| byte == BYTE));
}

#[test]
fn the_order_of_the_tests() {
    let more = NODE_LIMIT + 1;
    let large = [vec![0; 3 * more as usize], vec![0, 0, more, 0, NONE]].concat();
    let damaged = [
        vec![0; 19],
        a_with(36, 4),
        a_with(3, 4),
        a_with(2, f32::NAN.to_bits()),
        bytes(&large),
        a_with(3, 0),
    ];
    // at 1 and 4 Sheet A is refused with 13
    for (place, sheet) in damaged.iter().enumerate() {
        for c in [0, 1, 3, 4, NONE] {
            refused(sheet, c, 0, place as u32 + 1);
            refused(sheet, c, 300, place as u32 + 1);
        }
    }
    for c in [1, 2, 4, NONE] {
        refused(&bytes(&A), c, 0, 13);
        refused(&bytes(&A), c, 300, 13);
    }
    assert_eq!(
        split(&Sheet::read(bytes(&large)).unwrap(), 0),
        Err(Refusal::Limits)
    );
    assert_eq!(
        split(&Sheet::read(a_with(15, 1)).unwrap(), 0),
        Err(Refusal::Climb)
    );
}

#[test]
fn results_of_every_length() {
    for (sheet, c, length) in [
        (diamond(), 1, 188),
        (sheet_a(), 3, 200),
        (sheet_a(), 0, 200),
    ] {
        let mut whole = vec![BYTE; 400];
        let told = raw::split(sheet.bytes(), c, &mut whole).unwrap();
        assert!(whole[length..].iter().all(|&byte| byte == BYTE));
        for room in 0..length {
            refused(sheet.bytes(), c, room, 21);
        }
        for room in length..length + 4 {
            let mut result = vec![BYTE; room];
            assert_eq!(raw::split(sheet.bytes(), c, &mut result), Ok(told));
            assert_eq!(result, whole[..room]);
        }
    }
}

#[test]
fn the_largest() {
    let links = vec![link(0, 7, 0.0, 1); LINK_LIMIT as usize];
    let mut finals = vec![None; NODE_LIMIT as usize];
    finals[NODE_LIMIT as usize - 1] = Some(0.0);
    let wide = Sheet::write(&links, &finals, Some(0)).unwrap();
    for (c, counts) in [
        (0, (0, LINK_LIMIT)),
        (1, (LINK_LIMIT, 0)),
        (NODE_LIMIT - 1, (LINK_LIMIT, 0)),
    ] {
        let parts = split(&wide, c).unwrap();
        let told = (
            parts.first.sheet().link_count(),
            parts.second.sheet().link_count(),
        );
        assert_eq!(told, counts);
        checked(&wide, c);
    }
    let long = chain(NODE_LIMIT, -128.0);
    for c in [0, 1, NODE_LIMIT / 2, NODE_LIMIT - 1] {
        checked(&long, c);
        sums(&long, c, &[1, 2]);
    }
}

// The parts by the words of the request, apart from the library.
fn judged(whole: &Sheet, c: u32) -> Result<[Sheet; 2], Refusal> {
    let start = whole.start().filter(|&start| start <= c);
    let past = whole.links().any(|l| l.source < c && c < l.next);
    let marked = whole.finals().take(c as usize).any(|mark| mark.is_some());
    if whole.node_count() <= c || start.is_none() || past || marked {
        return Err(Refusal::Narrow);
    }
    let (below, mut above): (Vec<Link>, Vec<Link>) = whole.links().partition(|l| l.source < c);
    for link in &mut above {
        link.source -= c;
        link.next -= c;
    }
    let mut preheat: Vec<Option<f32>> = whole.finals().take(c as usize).collect();
    preheat.push(Some(0.0));
    let bake: Vec<Option<f32>> = whole.finals().skip(c as usize).collect();
    Ok([
        write(&below, &preheat, start, said(whole)).unwrap(),
        write(&above, &bake, Some(0), said(whole)).unwrap(),
    ])
}

// Both parts, and the words behind each in the area.
fn checked(whole: &Sheet, c: u32) -> bool {
    let (parts, due) = (split(whole, c), judged(whole, c));
    let (parts, due) = match (parts, due) {
        (Ok(parts), Ok(due)) => (parts, due),
        (parts, due) => {
            assert_eq!(
                (parts.err(), due.err()),
                (Some(Refusal::Narrow), Some(Refusal::Narrow))
            );
            return false;
        }
    };
    assert_eq!(
        [parts.first.sheet(), parts.second.sheet()],
        [&due[0], &due[1]]
    );
    let length = raw::split_len(whole.node_count(), whole.link_count(), whole.trailer());
    let mut area = vec![BYTE; length];
    let told = raw::split(whole.bytes(), c, &mut area).unwrap();
    let words = |numbers: Vec<u32>| bytes(&numbers);
    let expected = [
        due[0].bytes(),
        &words(parts.first.numbers().collect()),
        due[1].bytes(),
        &words(parts.second.numbers().collect()),
    ];
    assert_eq!(area, expected.concat());
    assert_eq!(told.first + told.second, whole.link_count());
    // each link of a part is the whole's of its number
    for (part, from) in [(&parts.first, 0), (&parts.second, c)] {
        for (mut link, number) in part.sheet().links().zip(part.numbers()) {
            link.source += from;
            link.next += from;
            assert_eq!(whole.link(number), Some(link));
        }
    }
    true
}

// The sentence of the request, for these n.
fn sums(whole: &Sheet, c: u32, counts: &[u32]) {
    let parts = split(whole, c).unwrap();
    for &n in counts {
        let (low, high) = (
            costs(parts.first.sheet(), n),
            costs(parts.second.sheet(), n),
        );
        assert_eq!(costs(whole, n), least_sums(n, &low, &high), "{n}");
    }
}

// Readings of the parts join to readings of the whole, each once, at the sum of their costs.
fn joined(whole: &Sheet, c: u32) -> usize {
    let parts = split(whole, c).unwrap();
    let [low, high] = [&parts.first, &parts.second].map(|part| list(part.sheet(), 64).unwrap());
    if low.len() * high.len() >= 64 {
        return 0;
    }
    let mut made = Vec::new();
    for one in low.readings() {
        for other in high.readings() {
            let run = parts.join(one, other).unwrap();
            let cost = one.cost() + other.cost();
            assert_eq!(walked(whole, &run), Some((cost, c + other.end())));
            made.push((cost, run));
        }
    }
    let mut all = readings(whole, 64);
    made.sort();
    all.sort();
    assert_eq!(made, all);
    made.len()
}

// Links climb, and hardly ever pass c; few nodes below c are final. The trailer is drawn, and with it the unit.
fn drawn(random: &mut Random, nodes: u32, c: u32, spread: u32, barred: bool) -> Sheet {
    let said = random.said();
    let unit = said.unwrap_or(Unit::Of64);
    let weight = |random: &mut Random| match barred {
        true => random.weight_or_barred_in(spread, unit),
        false => random.weight_in(spread, unit),
    };
    let links: Vec<Link> = (0..random.below(20))
        .map(|_| {
            let source = random.below(nodes - 1);
            let last = if source < c && random.below(60) > 0 {
                c
            } else {
                nodes - 1
            };
            let next = source + 1 + random.below(last - source);
            Link {
                olabel: random.below(3),
                ..link(source, random.below(3), weight(random), next)
            }
        })
        .collect();
    let finals: Vec<Option<f32>> = (0..nodes)
        .map(|v| {
            let marked = random.below(if v < c { 60 } else { 2 }) == 0;
            marked.then(|| weight(random))
        })
        .collect();
    let start = (random.below(20) > 0).then(|| random.below((c + 2).min(nodes)) / 2);
    write(&links, &finals, start, said).unwrap()
}

#[test]
fn drawn_machines() {
    let mut random = Random(7);
    let all: Vec<u32> = (1..=LIST_LIMIT).collect();
    let (mut parted, mut refused, mut made) = (0, 0, 0);
    for round in 0..3000 {
        let nodes = 2 + random.below(7);
        let c = random.below(nodes);
        let spread = [1, 8, 4096, 8192][round % 4];
        let whole = drawn(&mut random, nodes, c, spread, round / 4 % 2 == 1);
        if !checked(&whole, c) {
            refused += 1;
            continue;
        }
        parted += 1;
        let counts = if round % 10 == 0 {
            &all[..]
        } else {
            &[1, 2, 3, 64]
        };
        sums(&whole, c, counts);
        made += joined(&whole, c);
    }
    assert!(
        parted > 1500 && refused > 200 && made > 1000,
        "{parted} {refused} {made}"
    );
}

// Every node of machines that are drawn without regard to it.
#[test]
fn drawn_nodes() {
    let mut random = Random(8);
    let mut parted = 0;
    for _ in 0..500 {
        let nodes = 1 + random.below(8);
        let whole = match nodes {
            1 => Sheet::write(&[], &[None], Some(0)).unwrap(),
            _ => drawn(&mut random, nodes, nodes - 1, 64, false),
        };
        for c in (0..=nodes).chain([NONE]) {
            parted += usize::from(checked(&whole, c));
        }
    }
    assert!(parted > 300, "{parted}");
}
