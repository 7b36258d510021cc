//! Rows of a table: each kind of machine with each call.

use std::time::Duration;

use crate::contest::{Call, Ready, Times};
use crate::sheets::Kind;

pub struct Row {
    kind: &'static str,
    call: Call,
    taken: u32,
    has_reading: bool,
    /// One machine again and again.
    one: Times,
    /// All machines of the kind in turn, where there is more than one.
    all: Option<Times>,
}

fn rows(kinds: &[Kind], calls: &[Call], time: Duration) -> Vec<Row> {
    let mut rows = vec![];
    for kind in kinds {
        let ready = Ready::new(&kind.machines);
        let count = kind.machines.len();
        for call in calls {
            rows.push(Row {
                kind: kind.name,
                call: *call,
                taken: ready.taken(*call),
                has_reading: ready.has_reading(),
                one: ready.times(*call, 1, time),
                all: (count > 1).then(|| ready.times(*call, count, time)),
            });
        }
    }
    rows
}

/// Measures everything twice, with time between, and keeps the lesser times.
pub fn measured(kinds: &[Kind], calls: &[Call], time: Duration) -> Vec<Row> {
    let mut first = rows(kinds, calls, time);
    for (row, again) in first.iter_mut().zip(rows(kinds, calls, time)) {
        row.one = row.one.lesser(again.one);
        row.all = row.all.zip(again.all).map(|(a, b)| a.lesser(b));
    }
    first
}

const COLUMNS: &str =
    "library | areas anew | Rust | OpenFst | library / Rust | library / OpenFst |";
const TEN: &str = "ten: library | ten: areas anew | ten: Rust | ten: OpenFst | ten: library / Rust | ten: library / OpenFst |";
const RIGHT: &str = "---:|---:|---:|---:|---:|---:|";

/// Prints a table: one machine repeated, and beside it, where `many`, all in turn.
pub fn print(title: &str, rows: &[Row], many: bool) {
    println!("## {title}\n");
    let (columns, right) = match many {
        true => (format!("{COLUMNS} {TEN}"), RIGHT.repeat(2)),
        false => (COLUMNS.to_string(), RIGHT.to_string()),
    };
    println!("| machine | call | entries taken | clearing | {columns}");
    println!("|---|---|---:|---:|{right}");
    for row in rows {
        let all = row.all.map_or(String::new(), |times| cells(&times));
        let one = cells(&row.one);
        let clearing = row.one.clearing;
        println!(
            "| {} | {} | {} | {clearing:.1} |{one}{all}",
            row.kind, row.call, row.taken
        );
    }
    println!();
}

fn cells(times: &Times) -> String {
    let (openfst, ratio) = match times.openfst {
        Some(time) => (format!("{time:.1}"), format!("{:.2}", times.kept / time)),
        None => ("-".to_string(), "-".to_string()),
    };
    format!(
        " {:.1} | {:.1} | {:.1} | {openfst} | {:.2} | {ratio} |",
        times.kept,
        times.anew,
        times.rust,
        times.kept / times.rust
    )
}

/// The least and the greatest ratio of the rows that are asked for, of one machine and of all in turn.
fn span(rows: &[&Row], asked: impl Fn(&Row) -> bool, ratio: impl Fn(&Times) -> f64) -> String {
    let rows = rows.iter().filter(|row| asked(row));
    let ratios: Vec<f64> = rows
        .flat_map(|row| [Some(row.one), row.all])
        .flatten()
        .map(|times| ratio(&times))
        .collect();
    let least = ratios.iter().copied().fold(f64::INFINITY, f64::min);
    let most = ratios.iter().copied().fold(0.0, f64::max);
    format!("{least:.2} to {most:.2}")
}

/// What the tables say of the goals.
pub fn print_goals(tables: &[Vec<Row>]) {
    let rows: Vec<&Row> = tables.iter().flatten().collect();
    let single = |row: &Row| matches!(row.call, Call::Distances | Call::List(1));
    let read = |row: &Row| single(row) && row.has_reading;
    let unread = |row: &Row| single(row) && !row.has_reading;
    let searched = |row: &Row| !single(row) && row.one.clearing < 0.5 * row.one.kept;
    let cleared = |row: &Row| !single(row) && row.one.clearing >= 0.5 * row.one.kept;
    let rust = |times: &Times| times.kept / times.rust;
    let rust_anew = |times: &Times| times.anew / times.rust;
    let openfst = |times: &Times| times.kept / times.openfst.unwrap_or(f64::NAN);
    println!("## Against the goals\n");
    println!("| calls | library / Rust | areas anew / Rust | library / OpenFst |");
    println!("|---|---:|---:|---:|");
    let line = |name: &str, asked: &dyn Fn(&Row) -> bool| {
        let [a, b] = [span(&rows, asked, rust), span(&rows, asked, rust_anew)];
        println!("| {name} | {a} | {b} | {} |", span(&rows, asked, openfst));
    };
    line("distances and n = 1, with a reading", &read);
    line("distances and n = 1, without a reading", &unread);
    line("lists, clearing below half of the time", &searched);
    line("lists, clearing half of the time or more", &cleared);
}
