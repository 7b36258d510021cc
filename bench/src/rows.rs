//! Text rows turned into a sheet and back, beside OpenFst: the conversion alone, and whole commands.

use std::cell::RefCell;
use std::fs::{self, File};
use std::path::{Path, PathBuf};
use std::process::Command;
use std::time::Duration;

use oracle::bytes;
use yeldmur::{raw, Sheet};

use crate::clock::{timed, Run, Times};
#[cfg(openfst)]
use crate::openfst::OpenFst;
use crate::sheets::Kind;

/// The crate's filter, which bench/measure builds.
const FILTER: &str = concat!(
    env!("CARGO_MANIFEST_DIR"),
    "/../bindings/rust/target/release/examples/rows"
);

/// Machines as text rows, as sheets, and as OpenFst has them.
struct Ready {
    texts: Vec<Vec<u8>>,
    sheets: Vec<Sheet>,
    result: RefCell<Vec<u8>>,
    #[cfg(openfst)]
    openfst: Vec<OpenFst>,
    #[cfg(openfst)]
    files: Vec<Vec<u8>>,
}

impl Ready {
    fn new(kind: &Kind) -> Self {
        let sheet = |machine| Sheet::read(bytes::sheet(machine)).expect("a sheet");
        let sheets: Vec<Sheet> = kind.machines.iter().map(sheet).collect();
        let texts: Vec<Vec<u8>> = sheets.iter().map(|s| s.to_rows().expect("rows")).collect();
        let longest = sheets
            .iter()
            .map(|s| s.bytes().len())
            .chain(texts.iter().map(Vec::len));
        let result = RefCell::new(vec![0; longest.max().unwrap_or(0)]);
        #[cfg(openfst)]
        let openfst: Vec<OpenFst> = kind.machines.iter().map(OpenFst::built).collect();
        let ready = Self {
            texts,
            sheets,
            result,
            #[cfg(openfst)]
            files: openfst.iter().map(|made| made.written().to_vec()).collect(),
            #[cfg(openfst)]
            openfst,
        };
        for machine in 0..kind.machines.len() {
            ready.agree(machine);
        }
        ready
    }

    /// The rows give that very sheet, and in OpenFst that very machine; so do the rows that OpenFst prints.
    fn agree(&self, machine: usize) {
        let text = &self.texts[machine];
        assert!(Sheet::from_rows(text).as_ref() == Ok(&self.sheets[machine]));
        #[cfg(openfst)]
        {
            let made = &self.openfst[machine];
            assert!(OpenFst::compiled(text).equals(made));
            assert!(OpenFst::compiled(&made.printed()).equals(made));
            assert!(OpenFst::read(&self.files[machine]).equals(made));
            assert_eq!(made.printed()[..], text[..]);
        }
    }

    fn to_sheet(&self) -> Vec<Run<'_>> {
        vec![
            timed(|m| raw::rows_to_sheet(&self.texts[m], &mut self.result.borrow_mut())),
            timed(|m| Sheet::from_rows(&self.texts[m])),
            #[cfg(openfst)]
            timed(|m| OpenFst::compiled(&self.texts[m])),
            #[cfg(openfst)]
            timed(|m| {
                let made = OpenFst::compiled(&self.texts[m]);
                (made.written(), made)
            }),
        ]
    }

    fn to_rows(&self) -> Vec<Run<'_>> {
        vec![
            timed(|m| raw::sheet_to_rows(self.sheets[m].bytes(), &mut self.result.borrow_mut())),
            timed(|m| self.sheets[m].to_rows()),
            #[cfg(openfst)]
            timed(|m| self.openfst[m].printed()),
            #[cfg(openfst)]
            timed(|m| {
                let made = OpenFst::read(&self.files[m]);
                (made.printed(), made)
            }),
        ]
    }
}

/// A command from a file to a file, as one run for each machine.
struct Filter {
    name: &'static str,
    arguments: &'static [&'static str],
    from: &'static str,
    to: &'static str,
}

impl Filter {
    fn run(&self, folder: &Path, machine: usize) {
        let at = |kind: &str| folder.join(format!("{machine}.{kind}"));
        let status = Command::new(self.name)
            .args(self.arguments)
            .stdin(File::open(at(self.from)).expect("input"))
            .stdout(File::create(at(self.to)).expect("output"))
            .status();
        assert!(status.is_ok_and(|status| status.success()), "{}", self.name);
    }
}

const TO_SHEET: [Filter; 2] = [
    Filter {
        name: FILTER,
        arguments: &[],
        from: "text",
        to: "sheet",
    },
    Filter {
        name: "fstcompile",
        arguments: &["--keep_state_numbering"],
        from: "text",
        to: "fst",
    },
];

const TO_ROWS: [Filter; 2] = [
    Filter {
        name: FILTER,
        arguments: &["-r"],
        from: "sheet",
        to: "text.again",
    },
    Filter {
        name: "fstprint",
        arguments: &[],
        from: "fst",
        to: "text.openfst",
    },
];

fn has(command: &str) -> bool {
    Command::new(command).arg("--help").output().is_ok()
}

/// The texts as files, in a folder that goes when it is dropped.
struct Folder(PathBuf);

impl Folder {
    fn new(ready: &Ready) -> Self {
        let path = std::env::temp_dir().join(format!("yeldmur-bench-{}", std::process::id()));
        fs::create_dir_all(&path).expect("a folder");
        for (machine, text) in ready.texts.iter().enumerate() {
            fs::write(path.join(format!("{machine}.text")), text).expect("a file");
        }
        Self(path)
    }
}

impl Drop for Folder {
    fn drop(&mut self) {
        // what can't be removed stays in the folder for temporary files
        let _ = fs::remove_dir_all(&self.0);
    }
}

fn commands<'a>(folder: &'a Path, filters: &'a [Filter]) -> Vec<Run<'a>> {
    let there = filters.iter().filter(|filter| has(filter.name));
    there
        .map(|filter| timed(move |m| filter.run(folder, m)))
        .collect()
}

/// What was measured one way on machines of one kind.
struct Row {
    kind: &'static str,
    way: &'static str,
    from: usize,
    to: usize,
    one: Times,
    ten: Times,
    command: Times,
}

/// How many times there are in memory: the library in a result that is kept and in one made anew; OpenFst between text and machine, and
/// between text and the bytes of its file.
const IN_MEMORY: usize = 4;

fn rows(kind: &Kind, time: Duration) -> [Row; 2] {
    let ready = Ready::new(kind);
    let folder = Folder::new(&ready);
    let ten = kind.machines.len();
    let (text, sheet) = (ready.texts[0].len(), ready.sheets[0].bytes().len());
    let to_sheet = Row {
        kind: kind.name,
        way: "rows to sheet",
        from: text,
        to: sheet,
        one: Times::of(ready.to_sheet(), IN_MEMORY, 1, time),
        ten: Times::of(ready.to_sheet(), IN_MEMORY, ten, time),
        command: Times::of(commands(&folder.0, &TO_SHEET), 2, ten, time),
    };
    let to_rows = Row {
        kind: kind.name,
        way: "sheet to rows",
        from: sheet,
        to: text,
        one: Times::of(ready.to_rows(), IN_MEMORY, 1, time),
        ten: Times::of(ready.to_rows(), IN_MEMORY, ten, time),
        command: Times::of(commands(&folder.0, &TO_ROWS), 2, ten, time),
    };
    [to_sheet, to_rows]
}

fn measured(kinds: &[Kind], time: Duration) -> Vec<Row> {
    let all = || kinds.iter().flat_map(|kind| rows(kind, time));
    let mut first: Vec<Row> = all().collect();
    for (row, again) in first.iter_mut().zip(all()) {
        row.one = row.one.lesser(&again.one);
        row.ten = row.ten.lesser(&again.ten);
        row.command = row.command.lesser(&again.command);
    }
    first
}

/// Prints the table of text rows, and that of whole commands.
pub fn print(kinds: &[Kind], time: Duration) {
    let rows = measured(kinds, time);
    println!("## Text rows\n");
    let columns = "library | anew | OpenFst: machine | OpenFst: bytes | library / machine | library / bytes |";
    let ten: Vec<String> = columns
        .split_terminator(" |")
        .map(|column| format!("ten: {}", column.trim()))
        .collect();
    println!(
        "| machine | way | bytes in | bytes out | {columns} {} |",
        ten.join(" | ")
    );
    println!("|---|---|---:|---:|{}", "---:|".repeat(12));
    for row in &rows {
        print!("| {} | {} | {} | {} |", row.kind, row.way, row.from, row.to);
        for times in [&row.one, &row.ten] {
            print!(
                " {} | {} | {} |",
                times.cells(),
                times.ratio(0, 2),
                times.ratio(0, 3)
            );
        }
        println!();
    }
    println!("\n## Text rows, whole commands\n");
    println!("| machine | way | rows | fstcompile, fstprint | rows / OpenFst |");
    println!("|---|---|---:|---:|---:|");
    for row in &rows {
        let times = &row.command;
        println!(
            "| {} | {} | {} | {} |",
            row.kind,
            row.way,
            times.cells(),
            times.ratio(0, 1)
        );
    }
}
