//! Prints what the Rust answers: to the bench values, to random cases, to sheets on standard input.

use std::io::{self, BufWriter, Write};
use std::process::ExitCode;

use oracle::bytes::{self, from_hex, hex};
use oracle::cases::{Case, Cases};
use oracle::{bench, reference};

const USAGE: &str = "usage:
  oracle self              checks bench values of the requirements
  oracle cases SEED COUNT  prints random cases, one a line, with what is expected
  oracle cases SEED COUNT NODES LINKS
                           the same, of at most so many nodes and links
  oracle barred SEED COUNT the cases of a seed, half of them with barred links or ends
  oracle forms SEED COUNT  the same, half of them with the longer trailer
  oracle answer            the same for sheets read from standard input: SHEET N, one a line
  oracle rows              prints the sheets of text rows read from standard input, one text a line";

/// Machines from text rows have fewer states than this.
const STATES: u32 = 1 << 20;

/// The sheet, n, the distances, the nodes and links of the list's machine, the entries taken, and the
/// result; bytes in hexadecimal, - for none.
fn line(case: &Case) -> String {
    let distances = reference::distances(&case.machine);
    let list = reference::list(&case.machine, case.n);
    format!(
        "{} {} {} {} {} {} {}",
        hex(&bytes::sheet(&case.machine)),
        case.n,
        hex(&bytes::distances(&distances)),
        list.machine.nodes.len(),
        list.words.len(),
        list.taken,
        hex(&bytes::list(&list))
    )
}

fn own_checks() -> bool {
    let checks = bench::checks();
    for (what, holds) in &checks {
        println!("{} {what}", if *holds { "ok  " } else { "FAIL" });
    }
    let failed = checks.iter().filter(|check| !check.1).count();
    println!("{} passed, {failed} failed", checks.len() - failed);
    failed == 0
}

fn print_cases(cases: impl Iterator<Item = Case>) -> io::Result<()> {
    let mut out = BufWriter::new(io::stdout().lock());
    for case in cases {
        writeln!(out, "{}", line(&case))?;
    }
    out.flush()
}

/// The case of a line with a sheet that is laid out as it must be, and n.
fn asked(line: &str) -> Option<Case> {
    let (sheet, n) = line.split_once(' ')?;
    Some(Case {
        machine: bytes::machine(&from_hex(sheet)?),
        n: n.trim().parse().ok()?,
    })
}

/// The sheet that the Rust reads from a text, and the text that it leaves unread, or - where the text is
/// no UTF-8 or a state is too high.
fn rows_line(line: &str) -> String {
    let text = from_hex(line.trim()).expect("a text in hexadecimal");
    let read = std::str::from_utf8(&text)
        .ok()
        .and_then(|text| reference::from_rows(text, STATES));
    match read {
        Some((machine, rest)) => {
            format!("{} {}", hex(&bytes::sheet(&machine)), hex(rest.as_bytes()))
        }
        None => "-".to_string(),
    }
}

fn print_rows() -> io::Result<()> {
    let mut out = BufWriter::new(io::stdout().lock());
    for line in io::stdin().lines() {
        writeln!(out, "{}", rows_line(&line?))?;
    }
    out.flush()
}

fn run(arguments: &[&str]) -> Option<bool> {
    match arguments {
        ["self"] => Some(own_checks()),
        ["cases", seed, count] => {
            let cases = Cases::new(seed.parse().ok()?).take(count.parse().ok()?);
            Some(print_cases(cases).is_ok())
        }
        ["cases", seed, count, nodes, links] => {
            let cases = Cases::up_to(seed.parse().ok()?, nodes.parse().ok()?, links.parse().ok()?);
            Some(print_cases(cases.take(count.parse().ok()?)).is_ok())
        }
        ["barred", seed, count] => {
            let cases = Cases::barred(seed.parse().ok()?).take(count.parse().ok()?);
            Some(print_cases(cases).is_ok())
        }
        ["forms", seed, count] => {
            let cases = Cases::of_both_forms(seed.parse().ok()?).take(count.parse().ok()?);
            Some(print_cases(cases).is_ok())
        }
        ["answer"] => {
            let lines = io::stdin().lines().map_while(Result::ok);
            let cases = lines.map(|line| asked(&line).expect("SHEET N"));
            Some(print_cases(cases).is_ok())
        }
        ["rows"] => Some(print_rows().is_ok()),
        _ => None,
    }
}

fn main() -> ExitCode {
    let arguments: Vec<String> = std::env::args().skip(1).collect();
    let arguments: Vec<&str> = arguments.iter().map(String::as_str).collect();
    match run(&arguments) {
        Some(true) => ExitCode::SUCCESS,
        Some(false) => ExitCode::FAILURE,
        None => {
            eprintln!("{USAGE}");
            ExitCode::from(2)
        }
    }
}
