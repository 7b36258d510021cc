//! What two sheets both allow, beside OpenFst's composition of the same machines.

use std::cell::RefCell;
use std::time::Duration;

use oracle::bytes;
use oracle::machine::Machine;
use yeldmur::{raw, two_probes, Refusal, Sheet};

#[cfg(openfst)]
use crate::clock::timed_on;
use crate::clock::{timed, Run, Times};
#[cfg(openfst)]
use crate::openfst::OpenFst;
use crate::sheets::Pairs;

/// Two machines as sheets, and as OpenFst has them: with their links as they are, and with both sorted.
struct Pair {
    sheets: [Sheet; 2],
    #[cfg(openfst)]
    unsorted: [OpenFst; 2],
    #[cfg(openfst)]
    sorted: [OpenFst; 2],
}

impl Pair {
    fn new(machines: &[Machine; 2]) -> Self {
        let sheet = |machine| Sheet::read(bytes::sheet(machine)).expect("a sheet");
        let pair = Self {
            sheets: machines.each_ref().map(sheet),
            #[cfg(openfst)]
            unsorted: machines.each_ref().map(OpenFst::built),
            #[cfg(openfst)]
            sorted: sorted(machines),
        };
        #[cfg(openfst)]
        pair.agree();
        pair
    }

    /// The tests of both sheets, which the call makes first: 1 to 6, and what they find counted.
    fn tests(&self) -> [Result<raw::Needed, Refusal>; 2] {
        self.sheets
            .each_ref()
            .map(|sheet| raw::areas(sheet.bytes(), 1))
    }

    fn put(&self, result: &mut [u8]) -> usize {
        let [first, second] = &self.sheets;
        raw::two_probes(first.bytes(), second.bytes(), result).expect("accepted")
    }

    fn made(&self) -> Sheet {
        two_probes(&self.sheets[0], &self.sheets[1]).expect("accepted")
    }
}

#[cfg(openfst)]
fn sorted(machines: &[Machine; 2]) -> [OpenFst; 2] {
    let [mut first, mut second] = machines.each_ref().map(OpenFst::built);
    first.sort_as_first();
    second.sort_as_second();
    [first, second]
}

#[cfg(openfst)]
impl Pair {
    /// OpenFst finds as many links that the start reaches, as many of these on ways, and as many readings in a list for 64.
    fn agree(&self) {
        let both = self.made();
        let counts = Counts::of(&both);
        let connected = self.composed(true);
        assert_eq!(self.composed(false).links(), counts.reached);
        assert_eq!(connected.links(), counts.on_ways);
        let [one_sorted, _, _] = sort_and_compose(self.copied());
        assert_eq!(one_sorted.links(), counts.on_ways);
        let readings = yeldmur::list(&both, 64).expect("accepted").len();
        assert_eq!(connected.list(64).readings(), readings);
    }

    fn composed(&self, connected: bool) -> OpenFst {
        self.sorted[0].composed(&self.sorted[1], connected)
    }

    fn copied(&self) -> [OpenFst; 2] {
        self.unsorted.each_ref().map(OpenFst::copied)
    }
}

/// Sorts the machine with fewer links, the second if they have as many, since OpenFst needs only one sorted.
#[cfg(openfst)]
fn sort_and_compose([mut first, mut second]: [OpenFst; 2]) -> [OpenFst; 3] {
    if first.links() < second.links() {
        first.sort_as_first();
    } else {
        second.sort_as_second();
    }
    [first.composed(&second, true), first, second]
}

/// How many links a sheet has; how many of them the start reaches; and how many of these lead on to a final node.
struct Counts {
    links: usize,
    reached: usize,
    on_ways: usize,
}

impl Counts {
    /// Of a sheet that climbs, with links by source: nodes are reached in the order of the links, and lead on in the reverse order.
    fn of(sheet: &Sheet) -> Self {
        let mut reached = vec![false; sheet.node_count() as usize];
        if let Some(start) = sheet.start() {
            reached[start as usize] = true;
        }
        let mut leads_on: Vec<bool> = sheet.finals().map(|weight| weight.is_some()).collect();
        for link in sheet.links() {
            reached[link.next as usize] |= reached[link.source as usize];
        }
        for link in sheet.links().rev() {
            leads_on[link.source as usize] |= leads_on[link.next as usize];
        }
        let on_way =
            |link: &yeldmur::Link| reached[link.source as usize] && leads_on[link.next as usize];
        Self {
            links: sheet.links().len(),
            reached: sheet
                .links()
                .filter(|link| reached[link.source as usize])
                .count(),
            on_ways: sheet.links().filter(on_way).count(),
        }
    }
}

/// The contenders: the tests alone; the library in a result that is kept and by the crate's own call; OpenFst on sorted machines, connected
/// and not, and on machines that are sorted first.
const CONTENDERS: usize = 6;

fn runs<'a>(pairs: &'a [Pair], result: &'a RefCell<Vec<u8>>) -> Vec<Run<'a>> {
    vec![
        timed(|m| pairs[m].tests()),
        timed(|m| pairs[m].put(&mut result.borrow_mut())),
        timed(|m| pairs[m].made()),
        #[cfg(openfst)]
        timed(|m| pairs[m].composed(true)),
        #[cfg(openfst)]
        timed(|m| pairs[m].composed(false)),
        #[cfg(openfst)]
        timed_on(|m| pairs[m].copied(), sort_and_compose),
    ]
}

/// What was measured on pairs of one kind: the first again and again, or all in turn.
struct Row {
    kind: &'static str,
    pairs: usize,
    counts: Counts,
    times: Times,
}

fn rows(kind: &Pairs, time: Duration) -> [Row; 2] {
    let pairs: Vec<Pair> = kind.pairs.iter().map(Pair::new).collect();
    let longest = pairs.iter().map(|pair| pair.made().bytes().len()).max();
    let result = RefCell::new(vec![0; longest.unwrap_or(0)]);
    [1, pairs.len()].map(|count| Row {
        kind: kind.name,
        pairs: count,
        counts: Counts::of(&pairs[0].made()),
        times: Times::of(runs(&pairs, &result), CONTENDERS, count, time),
    })
}

/// Measures everything twice, with time between, and keeps the lesser times.
fn measured(kinds: &[Pairs], time: Duration) -> Vec<Row> {
    let all = || kinds.iter().flat_map(|kind| rows(kind, time));
    let mut first: Vec<Row> = all().collect();
    for (row, again) in first.iter_mut().zip(all()) {
        row.times = row.times.lesser(&again.times);
    }
    first
}

const COLUMNS: &str = "tests | library | anew | OpenFst: sorted | OpenFst: not connected | OpenFst: with sorting | library / tests | library / sorted | library / with sorting |";

/// Prints the table of two sheets.
pub fn print(kinds: &[Pairs], time: Duration) {
    println!("## Two sheets\n");
    println!("| pair | in turn | links | reached | on ways | {COLUMNS}");
    println!("|---|---:|---:|---:|---:|{}", "---:|".repeat(9));
    for row in measured(kinds, time) {
        let (counts, times) = (&row.counts, &row.times);
        println!(
            "| {} | {} | {} | {} | {} | {} | {} | {} | {} |",
            row.kind,
            row.pairs,
            counts.links,
            counts.reached,
            counts.on_ways,
            times.cells(),
            times.ratio(1, 0),
            times.ratio(1, 3),
            times.ratio(1, 5)
        );
    }
}
