//! The two parts of a sheet, beside the same parts made with the Rust's and OpenFst's own machines, and what lists of the parts cost.

use std::cell::RefCell;
use std::time::Duration;

use oracle::bytes;
use oracle::reference::plain;
use yeldmur::raw::{self, Split};
use yeldmur::{Part, Parts, Refusal, Sheet, Trailer};

use crate::clock::{repeated, Run, Times};
#[cfg(openfst)]
use crate::openfst::OpenFst;
use crate::port::Port;
use crate::rust;
use crate::sheets::Narrow;

/// Machines that narrow to a node, as sheets, and as the Rust and OpenFst have them; and a result that serves them all.
struct Ready {
    node: u32,
    sheets: Vec<Sheet>,
    result: RefCell<Vec<u8>>,
    rust: Vec<rust::Fst>,
    #[cfg(openfst)]
    openfst: Vec<OpenFst>,
}

impl Ready {
    fn new(kind: &Narrow) -> Self {
        let sheet = |machine| Sheet::read(bytes::sheet(machine)).expect("a sheet");
        let sheets: Vec<Sheet> = kind.machines.iter().map(sheet).collect();
        let longest = sheets.iter().map(size).max();
        let ready = Self {
            node: kind.node,
            sheets,
            result: RefCell::new(vec![0; longest.unwrap_or(0)]),
            rust: kind.machines.iter().map(rust::built).collect(),
            #[cfg(openfst)]
            openfst: kind.machines.iter().map(OpenFst::built).collect(),
        };
        for machine in 0..kind.machines.len() {
            ready.agree(machine);
        }
        ready
    }

    /// All make the very same two machines; the words of the library are the numbers of their links.
    fn agree(&self, machine: usize) {
        let parts = self.made(machine);
        let sheets = [parts.first.sheet(), parts.second.sheet()];
        let first = parts.first.sheet().link_count();
        let last = self.sheets[machine].link_count();
        assert_eq!(self.tests(machine), Err(Refusal::Narrow));
        assert_eq!(self.measured(machine), Err(Refusal::ResultArea));
        let told = self.put(machine).expect("accepted");
        let stored = [
            bytes_and_words(sheets[0], 0..first),
            bytes_and_words(sheets[1], first..last),
        ]
        .concat();
        assert_eq!((told.first, told.second), (first, last - first));
        assert!(self.result.borrow()[..stored.len()] == stored);
        for made in [self.rust_parts(machine), self.rust_parts_of_sheet(machine)] {
            for (part, sheet) in made.iter().zip(sheets) {
                assert!(bytes::sheet(&plain(part)) == sheet.bytes());
            }
        }
        #[cfg(openfst)]
        for (part, sheet) in self.openfst_parts(machine).iter().zip(sheets) {
            assert!(part.equals(&OpenFst::built(&bytes::machine(sheet.bytes()))));
        }
    }

    /// Tests 1 to 6 alone: the first that 13 asks is whether there is such a node.
    fn tests(&self, machine: usize) -> Result<Split, Refusal> {
        let sheet = &self.sheets[machine];
        raw::split(sheet.bytes(), sheet.node_count(), &mut [])
    }

    /// All tests, and no byte is written: the result is too short.
    fn measured(&self, machine: usize) -> Result<Split, Refusal> {
        raw::split(self.sheets[machine].bytes(), self.node, &mut [])
    }

    fn put(&self, machine: usize) -> Result<Split, Refusal> {
        let sheet = self.sheets[machine].bytes();
        raw::split(sheet, self.node, &mut self.result.borrow_mut())
    }

    fn made(&self, machine: usize) -> Parts {
        yeldmur::split(&self.sheets[machine], self.node).expect("accepted")
    }

    fn rust_parts(&self, machine: usize) -> [rust::Fst; 2] {
        rust::parts(&self.rust[machine], self.node)
    }

    fn rust_parts_of_sheet(&self, machine: usize) -> [rust::Fst; 2] {
        rust::parts(&rust::of_sheet(self.sheets[machine].bytes()), self.node)
    }

    #[cfg(openfst)]
    fn openfst_parts(&self, machine: usize) -> [OpenFst; 2] {
        self.openfst[machine].parts(self.node)
    }

    fn runs(&self) -> Vec<Run<'_>> {
        vec![
            repeated(|m| self.tests(m)),
            repeated(|m| self.measured(m)),
            repeated(|m| self.put(m)),
            repeated(|m| self.made(m)),
            repeated(|m| self.rust_parts(m)),
            repeated(|m| self.rust_parts_of_sheet(m)),
            #[cfg(openfst)]
            repeated(|m| self.openfst_parts(m)),
        ]
    }
}

/// The bytes that both parts of a sheet have.
fn size(sheet: &Sheet) -> usize {
    raw::split_len(sheet.node_count(), sheet.link_count(), sheet.trailer())
}

fn bytes_and_words(sheet: &Sheet, words: std::ops::Range<u32>) -> Vec<u8> {
    let words = words.flat_map(u32::to_le_bytes);
    sheet.bytes().iter().copied().chain(words).collect()
}

/// The contenders: tests 1 to 6, all tests, the library in a result that is kept and by the crate's own call; the Rust from a machine that
/// is built and from the sheet; OpenFst from a machine that is built.
const CONTENDERS: usize = 7;

/// What was measured on machines of one kind, one again and again or all in turn.
struct Row<'a> {
    kind: &'a Narrow,
    count: usize,
    first_links: u32,
    times: Times,
}

fn rows(kind: &Narrow, time: Duration) -> [Row<'_>; 2] {
    let ready = Ready::new(kind);
    [1, kind.machines.len()].map(|count| Row {
        kind,
        count,
        first_links: ready.put(0).expect("accepted").first,
        times: Times::of(ready.runs(), CONTENDERS, count, time),
    })
}

/// What lists for n cost on machines of one kind in turn: that of the whole, and those of both parts, each list with areas of its own; and
/// the call that makes the parts.
struct Lists {
    kind: &'static str,
    n: u32,
    /// How many readings the lists of the first machine and of its parts have.
    readings: [usize; 3],
    times: Times,
}

/// A machine and its two parts.
type Three = [Sheet; 3];

/// The whole's costs are the least sums of a cost of each part.
fn agree(three: &Three, n: u32) -> [usize; 3] {
    let costs = |sheet| -> Vec<i32> {
        let list = yeldmur::list(sheet, n).expect("accepted");
        list.readings().map(|reading| reading.cost()).collect()
    };
    let [whole, first, second] = three.each_ref().map(costs);
    let sum = |a: &i32| second.iter().map(|b| a + b).collect::<Vec<i32>>();
    let mut sums: Vec<i32> = first.iter().flat_map(sum).collect();
    sums.sort();
    sums.truncate(n as usize);
    assert_eq!(whole, sums);
    [whole.len(), first.len(), second.len()]
}

fn lists(kind: &Narrow, n: u32, time: Duration) -> Lists {
    let ready = Ready::new(kind);
    let three = |m| -> Three {
        let parts = ready.made(m);
        let [first, second] = [parts.first, parts.second].map(Part::into_sheet);
        [ready.sheets[m].clone(), first, second]
    };
    let threes: Vec<Three> = (0..kind.machines.len()).map(three).collect();
    let readings: Vec<[usize; 3]> = threes.iter().map(|three| agree(three, n)).collect();
    let ports = [0, 1, 2].map(|place| {
        let sheets = threes.iter().map(|three| three[place].clone());
        RefCell::new(Port::of(sheets.collect()))
    });
    let listed = |place: usize, m| ports[place].borrow_mut().list(m, n);
    let runs: Vec<Run> = vec![
        repeated(|m| listed(0, m)),
        repeated(|m| (listed(1, m), listed(2, m))),
        repeated(|m| ready.put(m)),
    ];
    Lists {
        kind: kind.name,
        n,
        readings: readings[0],
        times: Times::of(runs, 3, threes.len(), time),
    }
}

/// The tables: each kind with its contenders, how the cost grows with nodes and links, and lists where both parts have links.
struct Tables<'a> {
    kinds: Vec<Row<'a>>,
    growing: Vec<Row<'a>>,
    lists: Vec<Lists>,
}

const NS: [u32; 4] = [1, 3, 10, 64];

fn measured_once<'a>(kinds: &'a [Narrow], growing: &'a [Narrow], time: Duration) -> Tables<'a> {
    let all_in_turn = |kind| rows(kind, time).into_iter().nth(1);
    let inside = |kind: &&Narrow| 0 < kind.node && kind.node + 1 < kind.nodes;
    let listed = |kind: &'a Narrow| NS.map(|n| lists(kind, n, time));
    Tables {
        kinds: kinds.iter().flat_map(|kind| rows(kind, time)).collect(),
        growing: growing.iter().filter_map(all_in_turn).collect(),
        lists: kinds.iter().filter(inside).flat_map(listed).collect(),
    }
}

/// Measures everything twice, with time between, and keeps the lesser times.
fn measured<'a>(kinds: &'a [Narrow], growing: &'a [Narrow], time: Duration) -> Tables<'a> {
    let mut first = measured_once(kinds, growing, time);
    let again = measured_once(kinds, growing, time);
    let lesser = |row: &mut Times, again: &Times| *row = row.lesser(again);
    for (row, again) in first.kinds.iter_mut().zip(&again.kinds) {
        lesser(&mut row.times, &again.times);
    }
    for (row, again) in first.growing.iter_mut().zip(&again.growing) {
        lesser(&mut row.times, &again.times);
    }
    for (row, again) in first.lists.iter_mut().zip(&again.lists) {
        lesser(&mut row.times, &again.times);
    }
    first
}

const COLUMNS: &str = "tests 1 to 6 | all tests | library | anew | Rust | Rust, from the sheet | OpenFst | library / tests 1 to 6 | library / Rust | library / from the sheet | library / OpenFst |";

fn print_kinds(rows: &[Row]) {
    println!("## Two parts of a sheet\n");
    println!("| sheet | c | links of the parts | in turn | {COLUMNS}");
    println!("|---|---:|---:|---:|{}", "---:|".repeat(11));
    for row in rows {
        let (kind, times) = (row.kind, &row.times);
        let second_links = kind.links - row.first_links;
        println!(
            "| {} | {} | {}, {second_links} | {} | {} | {} | {} | {} | {} |",
            kind.name,
            kind.node,
            row.first_links,
            row.count,
            times.cells(),
            times.ratio(2, 0),
            times.ratio(2, 4),
            times.ratio(2, 5),
            times.ratio(2, 6)
        );
    }
}

fn print_growing(rows: &[Row]) {
    println!("\n## Two parts, growth with the sheet\n");
    println!("| nodes | links | bytes | tests 1 to 6 | all tests | library | tests 1 to 6: ns a node and link | library: ns a node and link | library: ns a byte |");
    println!("|---:|---:|---:|{}", "---:|".repeat(6));
    for row in rows {
        let (nodes, links) = (row.kind.nodes, row.kind.links);
        let count = f64::from(nodes + links);
        let bytes = raw::split_len(nodes, links, Trailer::Short);
        let [tests, all, library] = [0, 1, 2].map(|place| row.times.at(place));
        println!(
            "| {nodes} | {links} | {bytes} | {tests:.2} | {all:.2} | {library:.2} | {:.2} | {:.2} | {:.3} |",
            1e3 * tests / count,
            1e3 * library / count,
            1e3 * library / bytes as f64
        );
    }
}

fn print_lists(rows: &[Lists]) {
    println!("\n## Lists of a sheet and of its parts\n");
    println!("| sheet | n | readings: whole, first, second | whole | both parts | the call | parts / whole | parts and call / whole |");
    println!("|---|---:|---:|{}", "---:|".repeat(5));
    for row in rows {
        let [whole, first, second] = row.readings;
        let [of_whole, of_parts, call] = [0, 1, 2].map(|place| row.times.at(place));
        println!(
            "| {} | {} | {whole}, {first}, {second} | {} | {:.2} | {:.2} |",
            row.kind,
            row.n,
            row.times.cells(),
            of_parts / of_whole,
            (of_parts + call) / of_whole
        );
    }
}

/// Prints the tables of two parts.
pub fn print(kinds: &[Narrow], growing: &[Narrow], time: Duration) {
    let tables = measured(kinds, growing, time);
    print_kinds(&tables.kinds);
    print_growing(&tables.growing);
    print_lists(&tables.lists);
}
