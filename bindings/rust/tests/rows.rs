//! Text rows to sheets and back: what is read, what is refused and with which number, and round trips.
#![forbid(unsafe_code)]

mod common;

use common::{a_with, bytes, link, sheet_a, Random, A, NONE};
use yeldmur::{ffi, raw, units, Link, Refusal, Sheet, Unit, BARRED, NODE_LIMIT, WEIGHT_LIMIT};

const BYTE: u8 = 0xA5;

/// The rows of Sheet A, as they are written.
const ROWS: &str =
    "0\t1\t1\t1\t1\n0\t2\t2\t2\t0.5\n1\t3\t3\t3\t0.25\n1\t2\t5\t5\n2\t3\t4\t4\t0.75\n3\t0.5\n";

// The number is the same from all calls that read rows, and what is lent to them keeps its value.
fn refused(text: &[u8]) -> u32 {
    let number = Sheet::from_rows(text).unwrap_err().number();
    let (mut size, mut bytes) = (11, 12);
    assert_eq!(ffi::rows_sheet_bytes(text, &mut bytes), number);
    let mut result = [BYTE; 400];
    assert_eq!(ffi::rows_to_sheet(text, &mut result, &mut size), number);
    assert_eq!((size, bytes, result), (11, 12, [BYTE; 400]));
    number
}

fn sheet(text: &str) -> Sheet {
    text.parse().unwrap()
}

#[test]
fn a_both_ways() {
    assert_eq!(Sheet::from_rows(ROWS.as_bytes()), Ok(sheet_a()));
    assert_eq!(sheet_a().to_rows(), Ok(ROWS.as_bytes().to_vec()));
    assert_eq!(sheet_a().to_string(), ROWS);
    assert_eq!(ROWS.parse(), Ok(sheet_a()));
}

#[test]
fn a_in_other_words() {
    let text = " 0 1 1 1 1.000000\t\n3 00.5\n2\t\t3 4 04 0.75 \n1 3 3 3 0.250\n\t0 2 2 2 0.50\n1 2 5 5 -0\n";
    assert_eq!(sheet(text), sheet_a());
}

#[test]
fn links_of_a_node_stand_in_row_order() {
    let sheet = sheet("1 2 9 9\n0 1 5 5\n1 0 8 8\n0 2 4 4\n1 2 7 7\n");
    let labels: Vec<u32> = sheet.links().map(|link| link.ilabel).collect();
    assert_eq!(labels, [5, 4, 9, 8, 7]);
    assert_eq!(sheet.start(), Some(1));
    assert_eq!(
        sheet.to_string(),
        "1\t2\t9\t9\n1\t0\t8\t8\n1\t2\t7\t7\n0\t1\t5\t5\n0\t2\t4\t4\n"
    );
}

#[test]
fn labels_and_weights_at_their_ends() {
    let text = "0\t1\t4294967295\t0\t-128\n0\t0\t0\t4294967295\t0.015625\n0\t128\n1\t-127.984375\n";
    let sheet = sheet(text);
    let first = Link {
        source: 0,
        ilabel: u32::MAX,
        olabel: 0,
        weight: -128.0,
        next: 1,
    };
    assert_eq!(sheet.link(0), Some(first));
    assert_eq!(sheet.link(1).unwrap().weight, 1.0 / 64.0);
    assert_eq!(sheet.final_weight(1), Some(-127.984375));
    assert_eq!(sheet.to_string(), text);
}

#[test]
fn texts_without_rows() {
    for text in ["", "0", "0\n1", "0 1 1 1 1\n1", " ", "\t"] {
        assert_eq!(refused(text.as_bytes()), 8, "{text:?}");
    }
    for text in ["\n", "0\n\n", "\n0\n", "0\n \t\n1\n"] {
        assert_eq!(refused(text.as_bytes()), 8, "{text:?}");
    }
}

#[test]
fn rows_that_cannot_be_read() {
    for row in [
        "0 1 2",
        "0 1 2 3 4 5",
        "+1",
        "-1",
        "0 +1",
        "0 1.",
        "0 .5",
        "0 -.5",
        "0 -",
        "0 --1",
        "0 1e3",
        "0 1.0000000",
        "0 1.5.0",
        "0 1,5",
        "0 infinity",
        "0 INFINITY",
        "0 Infinit",
        "0 Infinity1",
        "0 Infinity.0",
        "0 -Infinity",
        "0 +Infinity",
        "0 1 1 1 infinity",
        "0 1 1 Infinity",
        "Infinity",
        "0 inf",
        "0 nan",
        "0x1",
        "a",
        "0 1 1 a",
        "0 1 1 1 a",
        "0 1 1 1.0",
        "0 1 -1 1",
        "1.0",
        "# 0",
        "4294967296",
        "9999999999",
        "0 4294967296 1 1",
        "0 1 4294967296 1",
        "0 1 1 9999999999",
        "0 \u{a0}1",
        "0 \u{663}",
        "0\u{b}1",
        "0\u{c}1",
    ] {
        // by itself, first, and last
        for text in [
            format!("{row}\n"),
            format!("{row}\n5\n"),
            format!("5\n{row}\n"),
        ] {
            assert_eq!(refused(text.as_bytes()), 8, "{text:?}");
        }
    }
}

#[test]
fn bytes_that_are_no_text() {
    let texts: [&[u8]; 7] = [
        b"0\r\n",
        b"0 1\r\n",
        b"0\0\n",
        b"\00\n",
        b"0 \xFF\n",
        b"\xB2\n",
        b"\xEF\xBB\xBF0\n",
    ];
    for text in texts {
        assert_eq!(refused(text), 8, "{text:?}");
    }
    // every byte by itself as a field, and after a digit
    for byte in (0..=255).filter(|byte| !b" \t\n".contains(byte)) {
        let digit = byte.is_ascii_digit();
        assert_eq!(Sheet::from_rows(&[byte, b'\n']).is_ok(), digit, "{byte}");
        assert_eq!(
            Sheet::from_rows(&[b'1', byte, b'\n']).is_ok(),
            digit,
            "{byte}"
        );
    }
}

#[test]
fn a_second_final_row() {
    for text in ["0\n0\n", "0 1\n0 1\n", "0\n1\n2\n0 5\n", "0\n0 129\n"] {
        assert_eq!(refused(text.as_bytes()), 8, "{text:?}");
    }
    // a node's final row may stand anywhere, and a link is none
    assert_eq!(sheet("0\n0 0 1 1\n").to_string(), "0\t0\t1\t1\n0\n");
    // nodes far apart, so far that no sheet is made
    assert_eq!(refused(b"4294967294\n70000\n4294967294\n"), 8);
    assert_eq!(refused(b"70000\n4294967294\n65536\n131072\n70000 1\n"), 8);
    // nodes on either side of powers of two
    for node in [16_383, 16_384, 16_385, 32_767, 32_768] {
        let others = "0\n16382\n16386\n32766\n32769\n";
        assert_eq!(refused(format!("{node}\n{others}{node}\n").as_bytes()), 8);
        assert!(Sheet::from_rows(format!("{others}{node}\n").as_bytes()).is_ok());
    }
}

#[test]
fn a_second_final_row_among_many() {
    // more final rows than a pass over the text keeps: rising, falling and mixed
    let kept = NODE_LIMIT;
    let places: [fn(u32) -> u32; 3] = [|i| i, |i| 9_999 - i, |i| 7 * i % 10_000];
    for place in places {
        let text: String = (0..10_000)
            .map(|i| format!("{}\n", 1_000 * place(i)))
            .collect();
        assert_eq!(
            raw::rows_sheet_bytes(text.as_bytes()),
            Ok(12 * 9_999_001 + 20)
        );
        for twice in [0, 1, kept - 2, kept - 1, kept, kept + 1, 2 * kept, 9_999] {
            let more = format!("{text}{}\n", 1_000 * twice);
            assert_eq!(raw::rows_sheet_bytes(more.as_bytes()), Err(Refusal::Rows));
        }
    }
}

#[test]
fn barred_rows() {
    let text = "0\t1\t7\t8\tInfinity\n0\t-0.5\n1\tInfinity\n";
    let sheet = sheet(text);
    assert_eq!(sheet.link(0).unwrap().weight, BARRED);
    let finals: Vec<Option<f32>> = sheet.finals().collect();
    assert_eq!(finals, [Some(-0.5), Some(BARRED)]);
    assert_eq!(sheet.to_string(), text);
    // a row that can't be read, a node too high and a weight off the grid come before and after as ever
    assert_eq!(refused(b"0 Infinity\n1 x\n"), 8);
    assert_eq!(refused(b"0 Infinity\n4294967295\n"), 1);
    assert_eq!(refused(b"0 Infinity\n1 0.3\n"), 4);
}

#[test]
fn weights_off_the_grid() {
    let nines = "9".repeat(40);
    for weight in [
        "128.000001",
        "128.015625",
        "-128.015625",
        "0.3",
        "-0.01",
        "129",
    ] {
        let text = format!("0 1 1 1 {weight}\n1\n");
        assert_eq!(refused(text.as_bytes()), 4, "{weight}");
        let text = format!("0 1 1 1\n1 {weight}\n");
        assert_eq!(refused(text.as_bytes()), 4, "{weight}");
    }
    for weight in [nines.clone(), format!("-{nines}.5"), "1".repeat(400)] {
        assert_eq!(refused(format!("0 {weight}\n").as_bytes()), 4);
    }
    // digits without end in front are no fault by themselves
    let text = format!("0 {}1\n", "0".repeat(40));
    assert_eq!(sheet(&text).final_weight(0), Some(1.0));
    let text = format!("{}1\n", "0".repeat(40));
    assert_eq!(sheet(&text).start(), Some(1));
}

#[test]
fn the_order_of_the_tests() {
    // 8 comes before all, wherever it is; 1 before 4
    assert_eq!(refused(b"0 129\n1 x\n"), 8);
    assert_eq!(refused(b"4294967295 9\n0 1 2\n"), 8);
    assert_eq!(refused(b"4294967295 9\n"), 1);
    assert_eq!(refused(b"4294967295 0.3\n"), 1);
    assert_eq!(refused(b"0 4294967295 1 1\n"), 1);
    // 4 before 21
    let short = raw::rows_to_sheet(b"0 0.3\n", &mut []);
    assert_eq!(short, Err(Refusal::Weight));
    // the length by arithmetic: no memory is asked for
    let most = b"4294967294\n";
    assert_eq!(raw::rows_sheet_bytes(most), Ok(51_539_607_560));
    assert_eq!(
        raw::rows_to_sheet(most, &mut [BYTE; 400]),
        Err(Refusal::ResultArea)
    );
}

#[test]
fn sheets_without_rows() {
    let none = |sheet: &Sheet| {
        assert_eq!(sheet.to_rows(), Err(Refusal::NoRows));
        assert_eq!(raw::sheet_rows_bytes(sheet.bytes()), Err(Refusal::NoRows));
        let (mut size, mut result) = (11, [BYTE; 400]);
        let number = ffi::sheet_to_rows(sheet.bytes(), &mut result, &mut size);
        assert_eq!((number, size, result), (9, 11, [BYTE; 400]));
        // what is shown instead is no text of rows
        assert_eq!(sheet.to_string(), "refused 9: a sheet that has no rows");
        assert_eq!(sheet.to_string().parse::<Sheet>(), Err(Refusal::Rows));
    };
    let one = [link(0, 1, 0.0, 1)];
    let written =
        |links: &[Link], finals: &[Option<f32>], start| Sheet::write(links, finals, start).unwrap();
    none(&written(&[], &[], None));
    none(&written(&one, &[None, Some(0.0)], None)); // no start
    none(&written(&one, &[None, None], Some(1))); // a bare start
    none(&written(&one, &[None, Some(0.0), None], Some(0))); // nothing names the last node

    // a link to it, a link of its own, a mark
    for (links, finals) in [
        (vec![link(0, 1, 0.0, 1)], [Some(0.0), None]),
        (vec![link(1, 1, 0.0, 0)], [Some(0.0), None]),
        (vec![], [Some(0.0), Some(0.0)]),
    ] {
        let sheet = written(&links, &finals, Some(0));
        assert_eq!(sheet.to_string().parse(), Ok(sheet));
    }
}

#[test]
fn damaged_sheets() {
    // a weight off the grid, and no rows either
    let mut words = A;
    (words[2], words[36]) = (0x8000_0000, NONE);
    let without_start = bytes(&words);
    for (number, damaged) in [
        (1, vec![0; 19]),
        (2, a_with(36, 4)),
        (3, a_with(3, 4)),
        (4, a_with(2, f32::NAN.to_bits())),
        (4, without_start),
    ] {
        let told = raw::sheet_rows_bytes(&damaged).map_err(Refusal::number);
        assert_eq!(told, Err(number));
        let (mut size, mut result) = (11, [BYTE; 400]);
        assert_eq!(ffi::sheet_to_rows(&damaged, &mut result, &mut size), number);
        assert_eq!((size, result), (11, [BYTE; 400]));
    }
}

#[test]
fn results_of_every_length() {
    let a = bytes(&A);
    for room in 0..160 {
        let mut result = vec![BYTE; room];
        let told = raw::rows_to_sheet(ROWS.as_bytes(), &mut result);
        if room < a.len() {
            assert_eq!(told, Err(Refusal::ResultArea));
            assert!(result.iter().all(|&byte| byte == BYTE));
        } else {
            assert_eq!(told, Ok(a.len()));
            assert_eq!(result[..a.len()], a);
            assert!(result[a.len()..].iter().all(|&byte| byte == BYTE));
        }
        let mut result = vec![BYTE; room];
        let told = raw::sheet_to_rows(&a, &mut result);
        if room < ROWS.len() {
            assert_eq!(told, Err(Refusal::ResultArea));
            assert!(result.iter().all(|&byte| byte == BYTE));
        } else {
            assert_eq!(told, Ok(ROWS.len()));
            assert_eq!(&result[..ROWS.len()], ROWS.as_bytes());
            assert!(result[ROWS.len()..].iter().all(|&byte| byte == BYTE));
        }
    }
    assert_eq!(raw::rows_sheet_bytes(ROWS.as_bytes()), Ok(a.len()));
    assert_eq!(raw::sheet_rows_bytes(&a), Ok(ROWS.len()));
}

// A weight as text by whole numbers, apart from the library: in sixty-fourths, of which one is 15,625 millionths.
fn weight_text(units: i32) -> String {
    let (ones, part) = (units.abs() / 64, units.abs() % 64 * 15_625);
    let sign = if units < 0 { "-" } else { "" };
    let text = format!("{sign}{ones}.{part:06}");
    text.trim_end_matches('0').trim_end_matches('.').to_string()
}

#[test]
fn every_weight_on_the_grid() {
    for units in -WEIGHT_LIMIT..=WEIGHT_LIMIT {
        let weight = weight_text(units);
        let sheet = sheet(&format!("0 {weight}\n"));
        assert_eq!(sheet.final_weight(0), Some(units as f32 / 64.0));
        let shown = if units == 0 {
            "0\n".to_string()
        } else {
            format!("0\t{weight}\n")
        };
        assert_eq!(sheet.to_string(), shown);
    }
}

struct Drawn {
    links: Vec<Link>,
    finals: Vec<Option<f32>>,
    start: u32,
}

// Links may lead anywhere, also back and to their own node.
fn drawn(random: &mut Random, nodes: u32, links: u32) -> Drawn {
    let mut links: Vec<Link> = (0..links)
        .map(|_| Link {
            source: random.below(nodes),
            ilabel: random.word() as u32 >> random.below(32),
            olabel: random.word() as u32 >> random.below(32),
            weight: random.weight_or_barred(WEIGHT_LIMIT as u32),
            next: random.below(nodes),
        })
        .collect();
    links.sort_by_key(|link| link.source);
    let finals = (0..nodes)
        .map(|_| (random.below(3) == 0).then(|| random.weight_or_barred(WEIGHT_LIMIT as u32)))
        .collect();
    let start = random.below(nodes);
    Drawn {
        links,
        finals,
        start,
    }
}

impl Drawn {
    fn sheet(&self) -> Sheet {
        Sheet::write(&self.links, &self.finals, Some(self.start)).unwrap()
    }

    // As the requirements say, from what was drawn.
    fn has_rows(&self) -> bool {
        let last = self.finals.len() as u32 - 1;
        let own = |node: u32| {
            self.finals[node as usize].is_some() || self.links.iter().any(|l| l.source == node)
        };
        own(self.start) && (own(last) || self.links.iter().any(|link| link.next == last))
    }

    fn node_rows(&self, node: u32) -> Vec<String> {
        let shown = |weight: f32| match units(weight, Unit::Of64) {
            Some(0) => String::new(),
            Some(units) => format!("\t{}", weight_text(units)),
            None => "\tInfinity".to_string(),
        };
        let own = self.links.iter().filter(|link| link.source == node);
        let mut rows: Vec<String> = own
            .map(|l| {
                let weight = shown(l.weight);
                format!("{node}\t{}\t{}\t{}{weight}\n", l.next, l.ilabel, l.olabel)
            })
            .collect();
        rows.extend(self.finals[node as usize].map(|weight| format!("{node}{}\n", shown(weight))));
        rows
    }

    // All rows, the start's first and then by rising node.
    fn rows(&self) -> Vec<String> {
        let others = (0..self.finals.len() as u32).filter(|&node| node != self.start);
        std::iter::once(self.start)
            .chain(others)
            .flat_map(|node| self.node_rows(node))
            .collect()
    }
}

#[test]
fn drawn_machines_both_ways() {
    let mut random = Random(4);
    let mut with_rows = 0;
    for _ in 0..3000 {
        let nodes = 1 + random.below(8);
        let links = random.below(12);
        let machine = drawn(&mut random, nodes, links);
        let sheet = machine.sheet();
        if !machine.has_rows() {
            assert_eq!(sheet.to_rows(), Err(Refusal::NoRows));
            continue;
        }
        with_rows += 1;
        let text = machine.rows().concat();
        assert_eq!(sheet.to_string(), text);
        assert_eq!(Sheet::from_rows(text.as_bytes()), Ok(sheet));
    }
    assert!(with_rows > 1000);
}

// Rows of different nodes may be mixed, as long as the first is the start's and a node's links keep their order; and blanks may be more.
#[test]
fn drawn_rows_mixed() {
    let mut random = Random(5);
    for _ in 0..1000 {
        let nodes = 1 + random.below(6);
        let links = random.below(12);
        let machine = drawn(&mut random, nodes, links);
        if !machine.has_rows() {
            continue;
        }
        let mut left: Vec<Vec<String>> = (0..nodes).map(|v| machine.node_rows(v)).collect();
        let mut text = left[machine.start as usize].remove(0);
        while left.iter().any(|rows| !rows.is_empty()) {
            let rows = &mut left[random.below(nodes) as usize];
            if !rows.is_empty() {
                let row = rows.remove(0);
                text.push_str(&row.replace('\t', ["\t", " ", " \t "][random.below(3) as usize]));
            }
        }
        assert_eq!(sheet(&text), machine.sheet());
    }
}

#[test]
fn a_large_machine() {
    let mut random = Random(6);
    let mut machine = drawn(&mut random, 2000, 16_384);
    machine.finals[1999] = Some(0.0);
    machine.start = machine.links[0].source;
    let sheet = machine.sheet();
    let text = machine.rows().concat();
    assert_eq!(sheet.to_string(), text);
    assert_eq!(Sheet::from_rows(text.as_bytes()), Ok(sheet));
}

// More nodes than any search accepts, with final rows far apart.
#[test]
fn nodes_beyond_the_limits() {
    let sheet = sheet("200000 3 1 1\n131072\n65537\n200000\n3\n65536\n199999\n");
    assert_eq!(sheet.node_count(), 200_001);
    assert_eq!(
        sheet.to_string(),
        "200000\t3\t1\t1\n200000\n3\n65536\n65537\n131072\n199999\n"
    );
    assert_eq!(refused(b"200000 3 1 1\n131072\n65537\n200000\n65537\n"), 8);
}
